/* setting.h: a setting of any kind, and those of the lifetime and echo drop. */
#ifndef SETTING_H
#define SETTING_H

#include "shared/random.h"
#include "shared/world.h"

/* Any setting or clearing, often one that is to be refused. */
void history_setting(struct world *world, struct random *random);

/* Any lifetime is taken. */
void history_set_lifetime(struct world *world, struct random *random);

/* On or off, and sometimes neither, which is refused. */
void history_set_echo_drop(struct world *world, struct random *random);

#endif
