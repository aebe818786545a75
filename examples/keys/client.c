/* Gives its words to the server, forgets them, asks for them again, and writes whether they are as they were. */
#include "xous.h"

#define WORDS 16

enum request { KEEP = 1, GIVE = 2 };

static xous_word plain(int i)
{
    return 0x01000193u * (i + 1);
}

int main(void)
{
    struct xous_identifier name = XOUS_SERVER("keys");
    volatile char *console = (volatile char *)xous_map_console().word[1];
    volatile xous_word *page = (volatile xous_word *)xous_map_memory(0, 0, XOUS_PAGE_SIZE, XOUS_R | XOUS_W).word[1];
    xous_word server = xous_connect(name).word[1];
    xous_word wrong = 0;

    for (int i = 0; i < WORDS; i++)
        page[i] = plain(i);
    xous_send_message(server, XOUS_LEND, KEEP, (xous_word)page, XOUS_PAGE_SIZE, 0, WORDS * sizeof(xous_word));
    for (int i = 0; i < WORDS; i++)
        page[i] = 0;
    xous_send_message(server, XOUS_MUTABLE_LEND, GIVE, (xous_word)page, XOUS_PAGE_SIZE, 0, 0);
    for (int i = 0; i < WORDS; i++)
        wrong |= page[i] ^ plain(i);
    xous_print(console, wrong ? "lost\n" : "kept\n");
    return wrong;
}
