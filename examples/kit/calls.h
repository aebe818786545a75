/* The numbers of calls, replies, errors and kinds of messages, and each call as a function: a part of xous.h.
 * tools/make-lists makes this file of the definitions of `syscall_codec` and `xk_base`. */
#ifndef XOUS_CALLS_H
#define XOUS_CALLS_H

/* The first word of a call. */
enum xous_call_number {
    XOUS_MAP_MEMORY = 2,
    XOUS_YIELD = 3,
    XOUS_CLAIM_INTERRUPT = 5,
    XOUS_FREE_INTERRUPT = 6,
    XOUS_INCREASE_HEAP = 10,
    XOUS_DECREASE_HEAP = 11,
    XOUS_UPDATE_MEMORY_FLAGS = 12,
    XOUS_CREATE_SERVER_WITH_ADDRESS = 14,
    XOUS_RECEIVE_MESSAGE = 15,
    XOUS_SEND_MESSAGE = 16,
    XOUS_CONNECT = 17,
    XOUS_CREATE_THREAD = 18,
    XOUS_UNMAP_MEMORY = 19,
    XOUS_RETURN_MEMORY = 20,
    XOUS_TERMINATE_PROCESS = 22,
    XOUS_TRY_SEND_MESSAGE = 24,
    XOUS_TRY_CONNECT = 25,
    XOUS_RETURN_SCALAR1 = 26,
    XOUS_RETURN_SCALAR2 = 27,
    XOUS_TRY_RECEIVE_MESSAGE = 28,
    XOUS_JOIN_THREAD = 36,
    XOUS_DESTROY_SERVER = 41,
    XOUS_GET_THREAD_ID = 42,
    XOUS_GET_PROCESS_ID = 43,
    XOUS_FORWARD_MESSAGE = 44,
};

/* The first word of a reply. */
enum xous_reply_kind {
    XOUS_OK = 0,
    XOUS_ERROR = 1,
    XOUS_MEMORY_RANGE = 3,
    XOUS_CONNECTION_ID = 7,
    XOUS_MESSAGE = 9,
    XOUS_THREAD_ID = 10,
    XOUS_SCALAR1 = 14,
    XOUS_SCALAR2 = 15,
    XOUS_MEMORY_RETURNED = 18,
    XOUS_NEW_SERVER = 19,
};

/* Why a call was refused. */
enum xous_error {
    XOUS_NO_ERROR = 0, /* of checked.h: the call was served */
    XOUS_BAD_ALIGNMENT = 1,
    XOUS_BAD_ADDRESS = 2,
    XOUS_OUT_OF_MEMORY = 3,
    XOUS_MEMORY_IN_USE = 4,
    XOUS_INTERRUPT_NOT_FOUND = 5,
    XOUS_INTERRUPT_IN_USE = 6,
    XOUS_SERVER_EXISTS = 8,
    XOUS_SERVER_NOT_FOUND = 9,
    XOUS_SERVER_QUEUE_FULL = 15,
    XOUS_THREAD_NOT_AVAILABLE = 16,
    XOUS_UNHANDLED_SYSCALL = 17,
    XOUS_INVALID_SYSCALL = 18,
    XOUS_SHARE_VIOLATION = 19,
    XOUS_INVALID_THREAD = 20,
    XOUS_ACCESS_DENIED = 23,
    XOUS_DOUBLE_FREE = 25,
    XOUS_INVALID_LIMIT = 27,
};

/* The kind of a send, and of the message that comes of it. */
enum xous_message_kind {
    XOUS_MUTABLE_LEND = 1,
    XOUS_LEND = 2,
    XOUS_MOVE = 3,
    XOUS_SCALAR = 4,
    XOUS_BLOCKING_SCALAR = 5,
};

/* Maps new pages, or the console's page. New ones have zeros, and physical is 0 for them. If address is 0, the
 * kernel chooses the place. */
XOUS_INLINE struct xous_reply xous_map_memory(xous_word physical, xous_word address, xous_word size, xous_word flags)
{
    return xous_call(XOUS_MAP_MEMORY, physical, address, size, flags, 0, 0, 0);
}

/* Ends the turn. */
XOUS_INLINE struct xous_reply xous_yield(void)
{
    return xous_call(XOUS_YIELD, 0, 0, 0, 0, 0, 0, 0);
}

/* Takes an interrupt for the caller's process. The handler is called with the number and the argument, as the
 * process's thread 1. */
XOUS_INLINE struct xous_reply xous_claim_interrupt(xous_word number, xous_word handler, xous_word argument)
{
    return xous_call(XOUS_CLAIM_INTERRUPT, number, handler, argument, 0, 0, 0, 0);
}

/* Gives an interrupt up. */
XOUS_INLINE struct xous_reply xous_free_interrupt(xous_word number)
{
    return xous_call(XOUS_FREE_INTERRUPT, number, 0, 0, 0, 0, 0, 0);
}

/* Grows the heap. */
XOUS_INLINE struct xous_reply xous_increase_heap(xous_word bytes)
{
    return xous_call(XOUS_INCREASE_HEAP, bytes, 0, 0, 0, 0, 0, 0);
}

/* Shrinks the heap. */
XOUS_INLINE struct xous_reply xous_decrease_heap(xous_word bytes)
{
    return xous_call(XOUS_DECREASE_HEAP, bytes, 0, 0, 0, 0, 0, 0);
}

/* Takes rights away from pages. */
XOUS_INLINE struct xous_reply xous_update_memory_flags(xous_word address, xous_word size, xous_word flags)
{
    return xous_call(XOUS_UPDATE_MEMORY_FLAGS, address, size, flags, 0, 0, 0, 0);
}

/* Makes a server. The reply's sixth word is a connection to it. */
XOUS_INLINE struct xous_reply xous_create_server_with_address(struct xous_identifier server)
{
    return xous_call(XOUS_CREATE_SERVER_WITH_ADDRESS, server.word[0], server.word[1], server.word[2], server.word[3], 0,
                     0, 0);
}

/* Takes a message, or waits for one. */
XOUS_INLINE struct xous_reply xous_receive_message(struct xous_identifier server)
{
    return xous_call(XOUS_RECEIVE_MESSAGE, server.word[0], server.word[1], server.word[2], server.word[3], 0, 0, 0);
}

/* Sends a message, again and again while the server is full. Of pages the words are address, length, offset and
 * valid. */
XOUS_INLINE struct xous_reply xous_send_message(xous_word connection, xous_word kind, xous_word id, xous_word w0,
                                                xous_word w1, xous_word w2, xous_word w3)
{
    return xous_call(XOUS_SEND_MESSAGE, connection, kind, id, w0, w1, w2, w3);
}

/* Connects to a server, again and again until there is one. The reply's second word is the connection. */
XOUS_INLINE struct xous_reply xous_connect(struct xous_identifier server)
{
    return xous_call(XOUS_CONNECT, server.word[0], server.word[1], server.word[2], server.word[3], 0, 0, 0);
}

/* Starts a thread. It begins at entry with the arguments in a0 to a3, and ends when entry returns. */
XOUS_INLINE struct xous_reply xous_create_thread(xous_word entry, xous_word stack, xous_word w0, xous_word w1,
                                                 xous_word w2, xous_word w3)
{
    return xous_call(XOUS_CREATE_THREAD, entry, stack, w0, w1, w2, w3, 0);
}

/* Removes pages. */
XOUS_INLINE struct xous_reply xous_unmap_memory(xous_word address, xous_word size)
{
    return xous_call(XOUS_UNMAP_MEMORY, address, size, 0, 0, 0, 0, 0);
}

/* Gives lent pages back. */
XOUS_INLINE struct xous_reply xous_return_memory(xous_word token, xous_word address, xous_word size, xous_word offset,
                                                 xous_word valid)
{
    return xous_call(XOUS_RETURN_MEMORY, token, address, size, offset, valid, 0, 0);
}

/* Ends the caller's process. */
XOUS_INLINE __attribute__((noreturn)) void xous_terminate_process(xous_word exit)
{
    xous_call(XOUS_TERMINATE_PROCESS, exit, 0, 0, 0, 0, 0, 0);
    __builtin_unreachable();
}

/* Sends a message unless the server is full. Of pages the words are address, length, offset and valid. */
XOUS_INLINE struct xous_reply xous_try_send_message(xous_word connection, xous_word kind, xous_word id, xous_word w0,
                                                    xous_word w1, xous_word w2, xous_word w3)
{
    return xous_call(XOUS_TRY_SEND_MESSAGE, connection, kind, id, w0, w1, w2, w3);
}

/* Connects to a server if there is one. */
XOUS_INLINE struct xous_reply xous_try_connect(struct xous_identifier server)
{
    return xous_call(XOUS_TRY_CONNECT, server.word[0], server.word[1], server.word[2], server.word[3], 0, 0, 0);
}

/* Answers a blocking scalar with one value. */
XOUS_INLINE struct xous_reply xous_return_scalar1(xous_word token, xous_word value)
{
    return xous_call(XOUS_RETURN_SCALAR1, token, value, 0, 0, 0, 0, 0);
}

/* Answers a blocking scalar with two values. */
XOUS_INLINE struct xous_reply xous_return_scalar2(xous_word token, xous_word value1, xous_word value2)
{
    return xous_call(XOUS_RETURN_SCALAR2, token, value1, value2, 0, 0, 0, 0);
}

/* Takes a message if there is one. */
XOUS_INLINE struct xous_reply xous_try_receive_message(struct xous_identifier server)
{
    return xous_call(XOUS_TRY_RECEIVE_MESSAGE, server.word[0], server.word[1], server.word[2], server.word[3], 0, 0, 0);
}

/* Waits for the end of a thread. The reply's second word is what its function returned. */
XOUS_INLINE struct xous_reply xous_join_thread(xous_word thread)
{
    return xous_call(XOUS_JOIN_THREAD, thread, 0, 0, 0, 0, 0, 0);
}

/* Ends a server. */
XOUS_INLINE struct xous_reply xous_destroy_server(struct xous_identifier server)
{
    return xous_call(XOUS_DESTROY_SERVER, server.word[0], server.word[1], server.word[2], server.word[3], 0, 0, 0);
}

/* Asks for the caller's thread. */
XOUS_INLINE struct xous_reply xous_get_thread_id(void)
{
    return xous_call(XOUS_GET_THREAD_ID, 0, 0, 0, 0, 0, 0, 0);
}

/* Asks for the caller's process. The reply is an XOUS_SCALAR1, whose second word is the pid. */
XOUS_INLINE struct xous_reply xous_get_process_id(void)
{
    return xous_call(XOUS_GET_PROCESS_ID, 0, 0, 0, 0, 0, 0, 0);
}

/* Hands a held lend or mutable lend to another server. */
XOUS_INLINE struct xous_reply xous_forward_message(xous_word token, xous_word connection)
{
    return xous_call(XOUS_FORWARD_MESSAGE, token, connection, 0, 0, 0, 0, 0);
}

#endif
