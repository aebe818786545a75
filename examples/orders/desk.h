/* The desk: its name and its requests. */
#ifndef DESK_H
#define DESK_H

#include "checked.h"

#define DESK XOUS_SERVER("desk")

enum request { ASK = 1, CLOSE = 2 };

#endif
