/* A server of time: who asks for a sleep of so many steps is answered, with the time, once they are done.
 *
 * The timer raises interrupt 20 in the step that it was armed for, and only in that one. A step is done only
 * where some thread is ready: while all wait no time passes, so a thread of this process never waits. */
#include "checked.h"

#define SLEEPERS 8u
#define NEVER 0xFFFFFFFFu

enum { NOW = 1, SLEEP = 2, RAISED = 3 };

enum { CLOCK, COMPARE }; /* words of the timer's page */

static volatile xous_word *const timer = (volatile xous_word *)XOUS_TIMER;

static struct sleeper {
    struct xous_message message;
    xous_word due; /* NEVER where there is no sleeper */
} sleepers[SLEEPERS];

static xous_word pass_time(xous_word unused)
{
    for (;;) /* without a call, which would be a line of the transcript; each tick ends its turn */
        __asm__ volatile("");
    return unused;
}

/* The handler, as thread 1, may not wait; the server's loop does the work. */
static void tell_server(xous_word number, xous_word server)
{
    (void)number;
    xous_need(xous_try_tell(server, RAISED, 0, 0));
}

/* Answers who has slept enough; gives when the next one is due. */
static xous_word answer_sleepers(void)
{
    xous_word next = NEVER;

    for (struct sleeper *each = sleepers; each < sleepers + SLEEPERS; each++) {
        if (each->due <= timer[CLOCK]) {
            xous_need(xous_answer(&each->message, timer[CLOCK]));
            each->due = NEVER;
        }
        if (each->due < next)
            next = each->due;
    }
    return next;
}

/* Arms the timer for who is next. Where the clock has passed that step before it was armed for it, it isn't raised. */
static void wake(void)
{
    xous_word next;

    do {
        next = answer_sleepers();
        if (next == NEVER)
            return;
        timer[COMPARE] = next;
    } while (timer[CLOCK] >= next);
}

static void take_sleeper(struct xous_message *message)
{
    for (xous_word place = 0; place < SLEEPERS; place++)
        if (sleepers[place].due == NEVER) {
            sleepers[place] = (struct sleeper){*message, timer[CLOCK] + message->word[0]};
            return;
        }
    xous_need(xous_answer(message, 0)); /* no room: answered at once, and not with a time */
}

int main(void)
{
    struct xous_identifier name = XOUS_SERVER("time");
    xous_word server, thread;
    char *stack;

    for (xous_word place = 0; place < SLEEPERS; place++)
        sleepers[place].due = NEVER;
    xous_need(xous_grow_heap(XOUS_PAGE_SIZE, &stack));
    xous_need(xous_make_server(name, &server));
    xous_need(xous_handle_interrupt(XOUS_TIMER_INTERRUPT, tell_server, server));
    xous_need(xous_start_thread(pass_time, stack + XOUS_PAGE_SIZE, 0, &thread));
    for (;;) {
        struct xous_message message;

        xous_need(xous_take_message(name, &message));
        if (message.id == NOW && message.kind == XOUS_BLOCKING_SCALAR)
            xous_need(xous_answer(&message, timer[CLOCK]));
        if (message.id == SLEEP && message.kind == XOUS_BLOCKING_SCALAR)
            take_sleeper(&message);
        wake();
    }
}
