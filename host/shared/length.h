/* length.h: how many an array has. */
#ifndef LENGTH_H
#define LENGTH_H

#include <stdint.h>

#define LENGTH(array) ((uint32_t)(sizeof(array) / sizeof *(array)))

#endif
