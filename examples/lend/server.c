/* Fills each page that is lent to it, and gives it back. */
#include "checked.h"

int main(void)
{
    struct xous_identifier name = XOUS_SERVER("fill");
    xous_word connection;

    xous_need(xous_make_server(name, &connection));
    for (;;) {
        struct xous_message message;

        xous_need(xous_take_message(name, &message));
        if (message.kind != XOUS_MUTABLE_LEND) {
            xous_need(xous_dismiss(&message));
            continue;
        }
        char *page = (char *)xous_pages_of(&message);

        page[0] = 'o';
        page[1] = 'k';
        page[2] = '\n';
        xous_need(xous_give_back(&message, 3));
    }
}
