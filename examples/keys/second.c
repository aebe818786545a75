/* Seals by a sum, with another secret; it takes as many steps as first.c. */
#define SECRET 0x0DDBA115
#define SHOWN 0
#define seal(plain, key) ((plain) + (key))
#define open(hidden, key) ((hidden) - (key))
#define next(key) ((key) + MIX)

#include "keeper.h"
