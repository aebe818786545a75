/* Writes a word to the console and ends. */
#include "checked.h"

int main(void)
{
    volatile char *console;

    xous_need(xous_open_console(&console));
    xous_print(console, "hello\n");
    return 0;
}
