/* A driver: its interrupt handler sends to its own server, whose loop does the work. */
#include "xous.h"

#define LINE 3u

/* Thread 1 may not wait, so it uses the send that is refused where the server is full. */
static void handle(xous_word number, xous_word server)
{
    xous_try_send_message(server, XOUS_SCALAR, number, 0, 0, 0, 0);
}

int main(void)
{
    struct xous_identifier name = XOUS_SERVER("driver");
    volatile char *console = (volatile char *)xous_map_console().word[1];
    xous_word server = xous_create_server_with_address(name).word[5];

    xous_claim_interrupt(LINE, (xous_word)handle, server);
    for (;;)
        *console = '0' + xous_receive_message(name).word[XOUS_ID];
}
