/* Seals by the bits of an exclusive or. */
#define SECRET 0x5EC2E71D
#ifndef SHOWN
#define SHOWN 0
#endif
#define seal(plain, key) ((plain) ^ (key))
#define open(hidden, key) ((hidden) ^ (key))
#define next(key) ((key) ^ MIX)

#include "keeper.h"
