/* Answers each word that it is sent with its double. */
#include "service.h"

int main(void)
{
    xous_word connection;

    xous_need(xous_make_server(SERVICE, &connection));
    for (;;) {
        struct xous_message message;

        xous_need(xous_take_message(SERVICE, &message));
        xous_need(xous_answer(&message, 2 * message.word[0]));
    }
}
