/* The store of words by key: its name and its requests. */
#ifndef STORE_H
#define STORE_H

#include "checked.h"

#define STORE XOUS_SERVER("store")

/* Blocking scalars: a key and, to put it there, a value. LEAVE has neither, and is answered when all users have left. */
enum request { PUT = 1, GET = 2, LEAVE = 3 };
enum key { LEFT = 1, RIGHT = 2 };

#endif
