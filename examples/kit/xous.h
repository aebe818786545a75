/* The system calls of the modelled machine, each as an inline function of calls.h (docs/calls.md).
 *
 * A call is ECALL with eight words in a0 to a7, and its reply is eight words there. Each function
 * returns the reply as it came: its first word says what it is (enum xous_reply_kind), and if that is
 * XOUS_ERROR the second word is one of enum xous_error. A program that takes a word of a reply without a
 * look at its first one may take an error for an address; checked.h has the calls with their errors apart.
 *
 * Each name of the kit begins with xous_ or XOUS_; xous_short.h has the names without. C11 or C++11. */
#ifndef XOUS_H
#define XOUS_H

typedef unsigned int xous_word;

struct xous_reply {
    xous_word word[8];
};

/* A server is known by four words. A name of 1 to 16 bytes is one: its bytes, then zeros, four bytes a word with the
 * first one lowest. The kit for Rust spells names alike (Identifier of its crate xous). */
struct xous_identifier {
    xous_word word[4];
};

#ifdef __cplusplus
#define XOUS_IDENTIFIER(...) (xous_identifier{{__VA_ARGS__}})
#define XOUS_IS_NAME(name) (0 * sizeof(char[sizeof(name) > 1 && sizeof(name) <= 17 ? 1 : -1]))
#else
#define XOUS_IDENTIFIER(...) ((struct xous_identifier){{__VA_ARGS__}})
#define XOUS_IS_NAME(name)                                                                                   \
    (0 * sizeof(struct {                                                                                     \
        int is_name;                                                                                         \
        _Static_assert(sizeof(name) > 1 && sizeof(name) <= 17, "the name of a server has 1 to 16 bytes");    \
    }))
#endif
#define XOUS_BYTE(name, at) \
    ((xous_word)(unsigned char)(name)[(at) < sizeof(name) ? (at) : sizeof(name) - 1] << 8 * ((at) % 4))
#define XOUS_LETTERS(name, at) \
    (XOUS_BYTE(name, at) | XOUS_BYTE(name, at + 1) | XOUS_BYTE(name, at + 2) | XOUS_BYTE(name, at + 3))

/* The identifier of a server by its name, a string literal: XOUS_SERVER("fill"). */
#define XOUS_SERVER(name)                                                                                    \
    XOUS_IDENTIFIER((xous_word)XOUS_IS_NAME("" name) | XOUS_LETTERS("" name, 0), XOUS_LETTERS("" name, 4),   \
                    XOUS_LETTERS("" name, 8), XOUS_LETTERS("" name, 12))

/* Flags of memory; R is always needed. */
enum xous_memory_flags {
    XOUS_R = 2,
    XOUS_W = 4,
    XOUS_X = 8,
};

#define XOUS_PAGE_SIZE 4096u

/* The stacks that a process has at its start: that of its first thread, whose lowest address is the first here, and
 * that of its interrupt handlers. There is no page below them, so a store there ends the process:
 * `fault 15 7fff7ffc` in a transcript, say, or `fault 15 7efffffc` of thread 1. */
#define XOUS_FIRST_STACK 0x7FFF8000u
#define XOUS_FIRST_STACK_SIZE 0x8000u
#define XOUS_HANDLER_STACK 0x7F000000u
#define XOUS_HANDLER_STACK_SIZE 0x1000u

#define XOUS_CONSOLE 0xF0000000u
#define XOUS_TIMER_INTERRUPT 20u
#define XOUS_TIMER 0xF0001000u

/* The words of the reply to ReceiveMessage that are a message. */
enum xous_message_word {
    XOUS_TOKEN = 1,
    XOUS_KIND = 2,
    XOUS_ID = 3,
    XOUS_ARGUMENT = 4, /* the first of four; of a memory message its address here */
    XOUS_ADDRESS = 4,
    XOUS_LENGTH = 5,
    XOUS_OFFSET = 6,
    XOUS_VALID = 7,
};

#define XOUS_INLINE static inline __attribute__((always_inline))

XOUS_INLINE struct xous_reply xous_call(xous_word number, xous_word w1, xous_word w2, xous_word w3, xous_word w4,
                                        xous_word w5, xous_word w6, xous_word w7)
{
    register xous_word a0 __asm__("a0") = number;
    register xous_word a1 __asm__("a1") = w1;
    register xous_word a2 __asm__("a2") = w2;
    register xous_word a3 __asm__("a3") = w3;
    register xous_word a4 __asm__("a4") = w4;
    register xous_word a5 __asm__("a5") = w5;
    register xous_word a6 __asm__("a6") = w6;
    register xous_word a7 __asm__("a7") = w7;
    __asm__ volatile("ecall"
                     : "+r"(a0), "+r"(a1), "+r"(a2), "+r"(a3), "+r"(a4), "+r"(a5), "+r"(a6), "+r"(a7)
                     :
                     : "memory");

    struct xous_reply reply = {{a0, a1, a2, a3, a4, a5, a6, a7}};

    return reply;
}

#include "calls.h"

/* The console: one page, whose first byte writes what is stored there. One process at a time can have it: in a
 * second one the call is refused with XOUS_MEMORY_IN_USE (checked.h has a form that must be looked at). */

XOUS_INLINE struct xous_reply xous_map_console(void)
{
    return xous_map_memory(XOUS_CONSOLE, 0, XOUS_PAGE_SIZE, XOUS_R | XOUS_W);
}

static inline void xous_print(volatile char *console, const char *text)
{
    while (*text)
        *console = *text++;
}

/* The exit word of a process whose check failed. xous_need has the numbers of errors, and 101 is a panic of Rust. */
#define XOUS_CHECK_FAILED 121u

/* What has to hold in each order of the threads: else the process ends by XOUS_CHECK_FAILED, which a search of the
 * orders tells (docs/orders.md). The number of the line keeps the compiler from making one of two checks. */
#define xous_check(condition)                                                           \
    do {                                                                                \
        if (!(condition)) {                                                             \
            xous_call(XOUS_TERMINATE_PROCESS, XOUS_CHECK_FAILED, 0, 0, 0, 0, 0, 0);     \
            __asm__ volatile("" : : "i"(__LINE__));                                     \
            __builtin_unreachable();                                                    \
        }                                                                               \
    } while (0)

#endif
