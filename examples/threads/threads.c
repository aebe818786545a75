/* Two threads write three letters each, and yield after each one; the first thread joins both. */
#include "xous.h"

#define STACK 4096u

static xous_word write_letters(volatile char *console, xous_word letter)
{
    for (int i = 0; i < 3; i++) {
        *console = letter;
        xous_yield();
    }
    return letter;
}

static xous_word start(xous_word stack, volatile char *console, xous_word letter)
{
    return xous_create_thread((xous_word)write_letters, stack, (xous_word)console, letter, 0, 0).word[1];
}

/* What the thread returned, or a point where it ended before it was joined: then the call is refused. */
static xous_word join(xous_word thread)
{
    struct xous_reply joined = xous_join_thread(thread);

    return joined.word[0] == XOUS_SCALAR1 ? joined.word[1] : '.';
}

int main(void)
{
    volatile char *console = (volatile char *)xous_map_console().word[1];
    xous_word heap = xous_increase_heap(2 * STACK).word[1];
    xous_word a = start(heap + STACK, console, 'a');
    xous_word b = start(heap + 2 * STACK, console, 'b');

    *console = join(a);
    *console = join(b);
    *console = '\n';
    return 0;
}
