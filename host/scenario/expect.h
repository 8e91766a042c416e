/* expect.h: what a scenario expects, and how much of it held. */
#ifndef EXPECT_H
#define EXPECT_H

#include "nodes.h"

/* The word `expect`: reads the rest of its line. */
void expect(void);

/* A scene begins: what happened before is not looked at any more. */
void expect_scene(void);
void expect_note(uint32_t node, uint32_t port, const struct kept *kept);
/* An expectation that another word told of. */
void expect_said(bool holds);
uint32_t expect_failures(void);
uint32_t expect_count(void);

#endif
