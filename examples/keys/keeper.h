/* A server that keeps words for its client, sealed, and gives them back. Who includes this says what the secret is, how a word
 * is sealed by a key and opened, and how the next key comes of one. SHOWN are the bits of the first sealed word that are told
 * when words are kept: of a server that keeps its secret, none. */
#include "xous.h"

#define WORDS 16
#define MIX 0x9E3779B9u

enum request {
    KEEP = 1, /* the words of a page that is lent */
    GIVE = 2, /* into a page that is lent mutably */
};

static volatile struct {
    xous_word secret, shown;
} inside = {SECRET, SHOWN};
static volatile xous_word sealed[WORDS];

static inline xous_word turned(xous_word key)
{
    return key << 5 | key >> 27;
}

static inline xous_word keep(const volatile xous_word *page)
{
    xous_word key = inside.secret;

    for (int i = 0; i < WORDS; i++, key = next(turned(key)))
        sealed[i] = seal(page[i], key);
    return sealed[0] & inside.shown;
}

static inline xous_word give(volatile xous_word *page)
{
    xous_word key = inside.secret;

    for (int i = 0; i < WORDS; i++, key = next(turned(key)))
        page[i] = open(sealed[i], key);
    return 0;
}

int main(void)
{
    struct xous_identifier name = XOUS_SERVER("keys");

    xous_create_server_with_address(name);
    for (;;) {
        struct xous_reply message = xous_receive_message(name);
        volatile xous_word *page = (volatile xous_word *)message.word[XOUS_ADDRESS];
        xous_word offset = message.word[XOUS_ID] == KEEP ? keep(page) : give(page);

        xous_return_memory(message.word[XOUS_TOKEN], message.word[XOUS_ADDRESS], message.word[XOUS_LENGTH], offset,
                           WORDS * sizeof(xous_word));
    }
}
