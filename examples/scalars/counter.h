/* What the server that counts is known by, and the ids of its messages. */
#ifndef COUNTER_H
#define COUNTER_H

#include "checked.h"

#define COUNTER XOUS_SERVER("counter")

enum {
    ADD = 1,        /* a scalar: its first word is added to the count */
    GET = 2,        /* a blocking scalar: the count */
    GET_DIGITS = 3, /* a blocking scalar: the count's tens, and what is left */
};

#endif
