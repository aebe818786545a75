/* Answers questions until it is closed. One that comes later is forgotten: nobody answers it. */
#include "desk.h"

int main(void)
{
    xous_word connection, is_open = 1;

    xous_need(xous_make_server(DESK, &connection));
    for (;;) {
        struct xous_message message;

        xous_need(xous_take_message(DESK, &message));
        if (message.id == CLOSE)
            is_open = 0;
        else if (is_open)
            xous_need(xous_answer(&message, 2 * message.word[0]));
    }
}
