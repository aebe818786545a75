/* Passes each page that is lent to it on to the server behind. */
#include "checked.h"

int main(void)
{
    struct xous_identifier front = XOUS_SERVER("front");
    xous_word connection, behind;

    xous_need(xous_make_server(front, &connection));
    xous_need(xous_find_server(XOUS_SERVER("back"), &behind));
    for (;;) {
        struct xous_message message;

        xous_need(xous_take_message(front, &message));
        if (message.kind == XOUS_MUTABLE_LEND)
            xous_need(xous_pass_on(&message, behind));
        else
            xous_need(xous_dismiss(&message));
    }
}
