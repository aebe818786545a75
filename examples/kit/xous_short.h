/* The names of the kit without xous_ and XOUS_, for a program whose own names are others: `need(open_console(&console))`.
 * They are macros, so this header comes behind those of other libraries. A server's name is SERVER("fill").
 * tools/make-lists makes this file of the kit's headers. */
#ifndef XOUS_SHORT_H
#define XOUS_SHORT_H

#include "checked.h"
#include "log.h"
#include "text.h"

typedef xous_word word;

#define SERVER XOUS_SERVER

/* Types, behind `struct` and `enum` */

#define reply xous_reply
#define identifier xous_identifier
#define memory_flags xous_memory_flags
#define message_word xous_message_word
#define call_number xous_call_number
#define reply_kind xous_reply_kind
#define error xous_error
#define message_kind xous_message_kind
#define message xous_message
#define log xous_log
#define digits xous_digits

/* Functions */

#define map_console(...) xous_map_console(__VA_ARGS__)
#define print(...) xous_print(__VA_ARGS__)
#define check(...) xous_check(__VA_ARGS__)
#define map_memory(...) xous_map_memory(__VA_ARGS__)
#define yield(...) xous_yield(__VA_ARGS__)
#define claim_interrupt(...) xous_claim_interrupt(__VA_ARGS__)
#define free_interrupt(...) xous_free_interrupt(__VA_ARGS__)
#define increase_heap(...) xous_increase_heap(__VA_ARGS__)
#define decrease_heap(...) xous_decrease_heap(__VA_ARGS__)
#define update_memory_flags(...) xous_update_memory_flags(__VA_ARGS__)
#define create_server_with_address(...) xous_create_server_with_address(__VA_ARGS__)
#define receive_message(...) xous_receive_message(__VA_ARGS__)
#define send_message(...) xous_send_message(__VA_ARGS__)
#define connect(...) xous_connect(__VA_ARGS__)
#define create_thread(...) xous_create_thread(__VA_ARGS__)
#define unmap_memory(...) xous_unmap_memory(__VA_ARGS__)
#define return_memory(...) xous_return_memory(__VA_ARGS__)
#define terminate_process(...) xous_terminate_process(__VA_ARGS__)
#define try_send_message(...) xous_try_send_message(__VA_ARGS__)
#define try_connect(...) xous_try_connect(__VA_ARGS__)
#define return_scalar1(...) xous_return_scalar1(__VA_ARGS__)
#define return_scalar2(...) xous_return_scalar2(__VA_ARGS__)
#define try_receive_message(...) xous_try_receive_message(__VA_ARGS__)
#define join_thread(...) xous_join_thread(__VA_ARGS__)
#define destroy_server(...) xous_destroy_server(__VA_ARGS__)
#define get_thread_id(...) xous_get_thread_id(__VA_ARGS__)
#define get_process_id(...) xous_get_process_id(__VA_ARGS__)
#define forward_message(...) xous_forward_message(__VA_ARGS__)
#define error_of(...) xous_error_of(__VA_ARGS__)
#define take_word(...) xous_take_word(__VA_ARGS__)
#define need(...) xous_need(__VA_ARGS__)
#define get_pages(...) xous_get_pages(__VA_ARGS__)
#define give_pages_back(...) xous_give_pages_back(__VA_ARGS__)
#define grow_heap(...) xous_grow_heap(__VA_ARGS__)
#define open_console(...) xous_open_console(__VA_ARGS__)
#define start_thread(...) xous_start_thread(__VA_ARGS__)
#define wait_for_end(...) xous_wait_for_end(__VA_ARGS__)
#define make_server(...) xous_make_server(__VA_ARGS__)
#define find_server(...) xous_find_server(__VA_ARGS__)
#define try_find_server(...) xous_try_find_server(__VA_ARGS__)
#define take_message(...) xous_take_message(__VA_ARGS__)
#define tell(...) xous_tell(__VA_ARGS__)
#define try_tell(...) xous_try_tell(__VA_ARGS__)
#define ask(...) xous_ask(__VA_ARGS__)
#define ask_two(...) xous_ask_two(__VA_ARGS__)
#define answer(...) xous_answer(__VA_ARGS__)
#define answer_two(...) xous_answer_two(__VA_ARGS__)
#define lend(...) xous_lend(__VA_ARGS__)
#define lend_to_fill(...) xous_lend_to_fill(__VA_ARGS__)
#define pages_of(...) xous_pages_of(__VA_ARGS__)
#define give_back(...) xous_give_back(__VA_ARGS__)
#define dismiss(...) xous_dismiss(__VA_ARGS__)
#define pass_on(...) xous_pass_on(__VA_ARGS__)
#define handle_interrupt(...) xous_handle_interrupt(__VA_ARGS__)
#define open_log(...) xous_open_log(__VA_ARGS__)
#define flush_log(...) xous_flush_log(__VA_ARGS__)
#define print_log(...) xous_print_log(__VA_ARGS__)
#define decimal(...) xous_decimal(__VA_ARGS__)
#define hexadecimal(...) xous_hexadecimal(__VA_ARGS__)

/* Numbers */

#define R XOUS_R
#define W XOUS_W
#define X XOUS_X
#define PAGE_SIZE XOUS_PAGE_SIZE
#define FIRST_STACK XOUS_FIRST_STACK
#define FIRST_STACK_SIZE XOUS_FIRST_STACK_SIZE
#define HANDLER_STACK XOUS_HANDLER_STACK
#define HANDLER_STACK_SIZE XOUS_HANDLER_STACK_SIZE
#define CONSOLE XOUS_CONSOLE
#define TIMER_INTERRUPT XOUS_TIMER_INTERRUPT
#define TIMER XOUS_TIMER
#define TOKEN XOUS_TOKEN
#define KIND XOUS_KIND
#define ID XOUS_ID
#define ARGUMENT XOUS_ARGUMENT
#define ADDRESS XOUS_ADDRESS
#define LENGTH XOUS_LENGTH
#define OFFSET XOUS_OFFSET
#define VALID XOUS_VALID
#define CHECK_FAILED XOUS_CHECK_FAILED
#define MAP_MEMORY XOUS_MAP_MEMORY
#define YIELD XOUS_YIELD
#define CLAIM_INTERRUPT XOUS_CLAIM_INTERRUPT
#define FREE_INTERRUPT XOUS_FREE_INTERRUPT
#define INCREASE_HEAP XOUS_INCREASE_HEAP
#define DECREASE_HEAP XOUS_DECREASE_HEAP
#define UPDATE_MEMORY_FLAGS XOUS_UPDATE_MEMORY_FLAGS
#define CREATE_SERVER_WITH_ADDRESS XOUS_CREATE_SERVER_WITH_ADDRESS
#define RECEIVE_MESSAGE XOUS_RECEIVE_MESSAGE
#define SEND_MESSAGE XOUS_SEND_MESSAGE
#define CONNECT XOUS_CONNECT
#define CREATE_THREAD XOUS_CREATE_THREAD
#define UNMAP_MEMORY XOUS_UNMAP_MEMORY
#define RETURN_MEMORY XOUS_RETURN_MEMORY
#define TERMINATE_PROCESS XOUS_TERMINATE_PROCESS
#define TRY_SEND_MESSAGE XOUS_TRY_SEND_MESSAGE
#define TRY_CONNECT XOUS_TRY_CONNECT
#define RETURN_SCALAR1 XOUS_RETURN_SCALAR1
#define RETURN_SCALAR2 XOUS_RETURN_SCALAR2
#define TRY_RECEIVE_MESSAGE XOUS_TRY_RECEIVE_MESSAGE
#define JOIN_THREAD XOUS_JOIN_THREAD
#define DESTROY_SERVER XOUS_DESTROY_SERVER
#define GET_THREAD_ID XOUS_GET_THREAD_ID
#define GET_PROCESS_ID XOUS_GET_PROCESS_ID
#define FORWARD_MESSAGE XOUS_FORWARD_MESSAGE
#define OK XOUS_OK
#define ERROR XOUS_ERROR
#define MEMORY_RANGE XOUS_MEMORY_RANGE
#define CONNECTION_ID XOUS_CONNECTION_ID
#define MESSAGE XOUS_MESSAGE
#define THREAD_ID XOUS_THREAD_ID
#define SCALAR1 XOUS_SCALAR1
#define SCALAR2 XOUS_SCALAR2
#define MEMORY_RETURNED XOUS_MEMORY_RETURNED
#define NEW_SERVER XOUS_NEW_SERVER
#define NO_ERROR XOUS_NO_ERROR
#define BAD_ALIGNMENT XOUS_BAD_ALIGNMENT
#define BAD_ADDRESS XOUS_BAD_ADDRESS
#define OUT_OF_MEMORY XOUS_OUT_OF_MEMORY
#define MEMORY_IN_USE XOUS_MEMORY_IN_USE
#define INTERRUPT_NOT_FOUND XOUS_INTERRUPT_NOT_FOUND
#define INTERRUPT_IN_USE XOUS_INTERRUPT_IN_USE
#define SERVER_EXISTS XOUS_SERVER_EXISTS
#define SERVER_NOT_FOUND XOUS_SERVER_NOT_FOUND
#define SERVER_QUEUE_FULL XOUS_SERVER_QUEUE_FULL
#define THREAD_NOT_AVAILABLE XOUS_THREAD_NOT_AVAILABLE
#define UNHANDLED_SYSCALL XOUS_UNHANDLED_SYSCALL
#define INVALID_SYSCALL XOUS_INVALID_SYSCALL
#define SHARE_VIOLATION XOUS_SHARE_VIOLATION
#define INVALID_THREAD XOUS_INVALID_THREAD
#define ACCESS_DENIED XOUS_ACCESS_DENIED
#define DOUBLE_FREE XOUS_DOUBLE_FREE
#define INVALID_LIMIT XOUS_INVALID_LIMIT
#define MUTABLE_LEND XOUS_MUTABLE_LEND
#define LEND XOUS_LEND
#define MOVE XOUS_MOVE
#define SCALAR XOUS_SCALAR
#define BLOCKING_SCALAR XOUS_BLOCKING_SCALAR
#define LOG_SERVER XOUS_LOG_SERVER
#define LOG_TEXT XOUS_LOG_TEXT

#endif
