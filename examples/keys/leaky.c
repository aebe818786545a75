/* As first.c, but that it tells the first sealed word, which depends on the secret. */
#define SHOWN 0xFFFFFFFF

#include "first.c"
