/* Between checked.h, start.S and libc.c, for programs over picolibc. */
#ifndef XOUS_LIBC_H
#define XOUS_LIBC_H

#include "xous.h"

/* Fills the place with what is thread-local at a thread's start, and returns it. */
void *xous_make_thread_local(void *place);

/* Where a thread begins: argument, function and thread pointer are in a0 to a2 (start.S). */
void xous_libc_thread(void);

/* As xous_start_thread, for a thread that may call the library. */
enum xous_error xous_start_libc_thread(xous_word (*run)(xous_word), void *stack_end, xous_word argument,
                                       xous_word *thread);

#endif
