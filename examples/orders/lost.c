/* Two threads add to one word without a lock; the sum is written as a digit. */
#include "xous.h"

static volatile xous_word total;

static xous_word add(xous_word amount)
{
    total = total + amount;
    return 0;
}

int main(void)
{
    volatile char *console = (volatile char *)xous_map_console().word[1];
    xous_word stack = xous_map_memory(0, 0, XOUS_PAGE_SIZE, XOUS_R | XOUS_W).word[1] + XOUS_PAGE_SIZE;
    xous_word other = xous_create_thread((xous_word)add, stack, 2, 0, 0, 0).word[1];

    add(1);
    xous_join_thread(other);
    *console = '0' + total;
    return 0;
}
