/* Adds one to the first word of each page that is passed on to it, and gives the page back to its lender. */
#include "checked.h"

int main(void)
{
    struct xous_identifier back = XOUS_SERVER("back");
    xous_word connection;

    xous_need(xous_make_server(back, &connection));
    for (;;) {
        struct xous_message message;

        xous_need(xous_take_message(back, &message));
        if (message.kind == XOUS_MUTABLE_LEND)
            *(xous_word *)xous_pages_of(&message) += 1;
        xous_need(xous_dismiss(&message));
    }
}
