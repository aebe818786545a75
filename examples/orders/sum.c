/* Two threads add to one word, with a call between the load and the store, and the sum is checked. */
#include "checked.h"

static volatile xous_word total, last;
static char stack[4096];

static xous_word add(xous_word amount)
{
    xous_word before = total;

    last = xous_get_thread_id().word[1];
    total = before + amount;
    return 0;
}

int main(void)
{
    xous_word thread;

    xous_need(xous_start_thread(add, stack + sizeof stack, 2, &thread));
    add(1);
    xous_join_thread(thread); /* refused if it has ended already */
    xous_check(total == 3);
    return 0;
}
