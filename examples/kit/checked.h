/* The calls with their errors apart: each function returns XOUS_NO_ERROR if the call was served, and else why it
 * was refused. What it gives besides goes to where its last arguments point, and is 0 if there is an error.
 * The compiler warns of a call whose error isn't looked at. */
#ifndef XOUS_CHECKED_H
#define XOUS_CHECKED_H

#include "xous.h"
#ifdef XOUS_PICOLIBC
#include "libc.h"
#endif

#define XOUS_CHECKED XOUS_INLINE __attribute__((warn_unused_result)) enum xous_error

XOUS_CHECKED xous_error_of(struct xous_reply reply)
{
    return reply.word[0] == XOUS_ERROR ? (enum xous_error)reply.word[1] : XOUS_NO_ERROR;
}

/* One word of the reply, or 0 if it is an error. */
XOUS_CHECKED xous_take_word(struct xous_reply reply, int place, xous_word *taken)
{
    enum xous_error error = xous_error_of(reply);

    *taken = error == XOUS_NO_ERROR ? reply.word[place] : 0;
    return error;
}

/* Apart from xous_need, so that a call that is served goes past it by one branch. */
static __attribute__((noinline, noreturn, unused)) void xous_end_by_error(enum xous_error error)
{
    xous_terminate_process(error);
}

/* For what a program can't do without: an error ends the process, with its number as the exit word. */
XOUS_INLINE void xous_need(enum xous_error error)
{
    if (error != XOUS_NO_ERROR)
        xous_end_by_error(error);
}

/* Memory. An address comes as a word and is assigned as a pointer: a store through a pointer to another type is one
 * that the compiler may move behind a later load. */

/* Pages of zeros at a place that the kernel chooses. */
XOUS_CHECKED xous_get_pages(xous_word size, xous_word **pages)
{
    xous_word address;
    enum xous_error error = xous_take_word(xous_map_memory(0, 0, size, XOUS_R | XOUS_W), 1, &address);

    *pages = (xous_word *)address;
    return error;
}

XOUS_CHECKED xous_give_pages_back(void *pages, xous_word size)
{
    return xous_error_of(xous_unmap_memory((xous_word)pages, size));
}

/* The heap grows by bytes, which are a multiple of XOUS_PAGE_SIZE; its new part begins at start. */
XOUS_CHECKED xous_grow_heap(xous_word bytes, char **start)
{
    xous_word address;
    enum xous_error error = xous_take_word(xous_increase_heap(bytes), 1, &address);

    *start = (char *)address;
    return error;
}

/* XOUS_MEMORY_IN_USE if a process has the console already: the log is for all others (log.h). */
XOUS_CHECKED xous_open_console(volatile char **console)
{
    xous_word address;
    enum xous_error error = xous_take_word(xous_map_console(), 1, &address);

    *console = (volatile char *)address;
    return error;
}

/* Threads: a thread's stack ends at the address that is given, and grows down from there. */

XOUS_CHECKED xous_start_thread(xous_word (*run)(xous_word), void *stack_end, xous_word argument, xous_word *thread)
{
#ifdef XOUS_PICOLIBC
    return xous_start_libc_thread(run, stack_end, argument, thread);
#else
    return xous_take_word(xous_create_thread((xous_word)run, (xous_word)stack_end, argument, 0, 0, 0), 1, thread);
#endif
}

XOUS_CHECKED xous_wait_for_end(xous_word thread, xous_word *returned)
{
    return xous_take_word(xous_join_thread(thread), 1, returned);
}

/* Servers */

XOUS_CHECKED xous_make_server(struct xous_identifier server, xous_word *connection)
{
    return xous_take_word(xous_create_server_with_address(server), 5, connection);
}

/* Waits until the server is there; xous_try_find_server returns XOUS_SERVER_NOT_FOUND. */
XOUS_CHECKED xous_find_server(struct xous_identifier server, xous_word *connection)
{
    return xous_take_word(xous_connect(server), 1, connection);
}

XOUS_CHECKED xous_try_find_server(struct xous_identifier server, xous_word *connection)
{
    return xous_take_word(xous_try_connect(server), 1, connection);
}

struct xous_message {
    xous_word token;
    enum xous_message_kind kind;
    xous_word id;
    xous_word word[4]; /* numbers; of a memory message its address here, length, offset and valid */
};

XOUS_CHECKED xous_take_message(struct xous_identifier server, struct xous_message *message)
{
    struct xous_reply reply = xous_receive_message(server);

    message->token = reply.word[XOUS_TOKEN];
    message->kind = (enum xous_message_kind)reply.word[XOUS_KIND];
    message->id = reply.word[XOUS_ID];
    for (int place = 0; place < 4; place++)
        message->word[place] = reply.word[XOUS_ARGUMENT + place];
    return xous_error_of(reply);
}

/* Messages */

/* A scalar: nobody waits for an answer. */
XOUS_CHECKED xous_tell(xous_word connection, xous_word id, xous_word first, xous_word second)
{
    return xous_error_of(xous_send_message(connection, XOUS_SCALAR, id, first, second, 0, 0));
}

/* As xous_tell, but it never waits: XOUS_SERVER_QUEUE_FULL if the server has no room. A handler may use it. */
XOUS_CHECKED xous_try_tell(xous_word connection, xous_word id, xous_word first, xous_word second)
{
    return xous_error_of(xous_try_send_message(connection, XOUS_SCALAR, id, first, second, 0, 0));
}

/* A blocking scalar: waits for the answer, and gives its first word. */
XOUS_CHECKED xous_ask(xous_word connection, xous_word id, xous_word first, xous_word second, xous_word *answer)
{
    struct xous_reply reply = xous_send_message(connection, XOUS_BLOCKING_SCALAR, id, first, second, 0, 0);

    return xous_take_word(reply, 1, answer);
}

/* As xous_ask, for an answer of two words. */
XOUS_CHECKED xous_ask_two(xous_word connection, xous_word id, xous_word first, xous_word second, xous_word answer[2])
{
    struct xous_reply reply = xous_send_message(connection, XOUS_BLOCKING_SCALAR, id, first, second, 0, 0);

    answer[1] = reply.word[0] == XOUS_SCALAR2 ? reply.word[2] : 0;
    return xous_take_word(reply, 1, answer);
}

XOUS_CHECKED xous_answer(struct xous_message *message, xous_word value)
{
    return xous_error_of(xous_return_scalar1(message->token, value));
}

XOUS_CHECKED xous_answer_two(struct xous_message *message, xous_word first, xous_word second)
{
    return xous_error_of(xous_return_scalar2(message->token, first, second));
}

/* Lends pages until the server gives them back; valid is a number for it, such as how many bytes count. */
XOUS_CHECKED xous_lend(xous_word connection, xous_word id, const void *pages, xous_word size, xous_word valid)
{
    return xous_error_of(xous_send_message(connection, XOUS_LEND, id, (xous_word)pages, size, 0, valid));
}

/* The server may write to the pages; the number that it gives back with them goes to valid. */
XOUS_CHECKED xous_lend_to_fill(xous_word connection, xous_word id, void *pages, xous_word size, xous_word *valid)
{
    struct xous_reply reply = xous_send_message(connection, XOUS_MUTABLE_LEND, id, (xous_word)pages, size, 0, *valid);

    return xous_take_word(reply, 2, valid);
}

/* The pages of a memory message. */
static inline void *xous_pages_of(struct xous_message *message)
{
    return (void *)message->word[0];
}

XOUS_CHECKED xous_give_back(struct xous_message *message, xous_word valid)
{
    xous_word offset = message->word[2];

    return xous_error_of(xous_return_memory(message->token, message->word[0], message->word[1], offset, valid));
}

/* For a message that a server doesn't know: its sender is answered 0, or has its pages back as they are. */
XOUS_CHECKED xous_dismiss(struct xous_message *message)
{
    switch (message->kind) {
    case XOUS_LEND:
    case XOUS_MUTABLE_LEND:
        return xous_give_back(message, message->word[3]);
    case XOUS_MOVE:
        return xous_give_pages_back(xous_pages_of(message), message->word[1]);
    case XOUS_BLOCKING_SCALAR:
        return xous_answer(message, 0);
    case XOUS_SCALAR:
        break;
    }
    return XOUS_NO_ERROR;
}

/* A lend is passed on to the server of a connection, which answers the sender. */
XOUS_CHECKED xous_pass_on(struct xous_message *message, xous_word connection)
{
    return xous_error_of(xous_forward_message(message->token, connection));
}

/* Interrupts */

/* handle is called as the process's thread 1 with the number and the argument. It may not wait. */
XOUS_CHECKED xous_handle_interrupt(xous_word number, void (*handle)(xous_word, xous_word), xous_word argument)
{
    return xous_error_of(xous_claim_interrupt(number, (xous_word)handle, argument));
}

#endif
