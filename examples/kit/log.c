/* The log: owns the console, and writes to it the text that is lent to it, a message at a time. */
#include "log.h"

static void write_text(volatile char *console, struct xous_message *message)
{
    const char *text = (const char *)message->word[0] + message->word[2];
    xous_word room = message->word[1] - message->word[2];
    xous_word size = message->word[3];

    if (message->word[2] > message->word[1])
        return;
    for (xous_word place = 0; place < size && place < room; place++)
        *console = text[place];
}

int main(void)
{
    volatile char *console;
    xous_word connection;

    xous_need(xous_open_console(&console));
    xous_need(xous_make_server(XOUS_LOG_SERVER, &connection));
    for (;;) {
        struct xous_message message;

        xous_need(xous_take_message(XOUS_LOG_SERVER, &message));
        if (message.kind == XOUS_LEND || message.kind == XOUS_MUTABLE_LEND)
            write_text(console, &message);
        if (xous_dismiss(&message) != XOUS_NO_ERROR)
            xous_print(console, "log: a message couldn't be answered\n");
    }
}
