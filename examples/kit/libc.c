/* What picolibc asks of a system, over the kit: `LIBC = picolibc` of kit.mk. printf goes to the log, a line at a time, so
 * an image with a program that prints has kit/log. malloc takes from the heap. There are no files and no input. */
#include "libc.h"
#include "log.h"

#include <errno.h>
#include <stdint.h>
#include <stdio.h>
#include <stdlib.h>
#include <string.h>
#include <sys/lock.h>
#include <unistd.h>

/* Locks. A thread is known by its thread pointer, which needs no call. */

struct __lock {
    xous_word is_taken;
    xous_word owner;
    xous_word depth;
};

struct __lock __lock___libc_recursive_mutex;

static xous_word this_thread(void)
{
    xous_word pointer;

    __asm__ volatile("mv %0, tp" : "=r"(pointer));
    return pointer;
}

static void take(struct __lock *lock)
{
    while (__atomic_exchange_n(&lock->is_taken, 1, __ATOMIC_ACQUIRE))
        xous_yield();
}

static void release(struct __lock *lock)
{
    __atomic_store_n(&lock->is_taken, 0, __ATOMIC_RELEASE);
}

void __retarget_lock_acquire_recursive(_LOCK_T lock)
{
    if (__atomic_load_n(&lock->owner, __ATOMIC_RELAXED) != this_thread()) {
        take(lock);
        __atomic_store_n(&lock->owner, this_thread(), __ATOMIC_RELAXED);
    }
    lock->depth++;
}

void __retarget_lock_release_recursive(_LOCK_T lock)
{
    if (--lock->depth)
        return;
    __atomic_store_n(&lock->owner, 0, __ATOMIC_RELAXED);
    release(lock);
}

void __retarget_lock_acquire(_LOCK_T lock)
{
    take(lock);
}

void __retarget_lock_release(_LOCK_T lock)
{
    release(lock);
}

void __retarget_lock_init(_LOCK_T *lock)
{
    *lock = calloc(1, sizeof **lock);
    xous_need(*lock ? XOUS_NO_ERROR : XOUS_OUT_OF_MEMORY);
}

void __retarget_lock_close(_LOCK_T lock)
{
    free(lock);
}

/* Standard output and standard error. */

static struct __lock output_lock;
static struct xous_log output;

static enum xous_error put_letter(char letter)
{
    enum xous_error error = output.page ? XOUS_NO_ERROR : xous_open_log(&output);

    return error == XOUS_NO_ERROR ? xous_print_log(&output, (char[]){letter, 0}) : error;
}

static int put(char letter, FILE *file)
{
    (void)file;
    __retarget_lock_acquire(&output_lock);
    enum xous_error error = put_letter(letter);
    __retarget_lock_release(&output_lock);
    return error == XOUS_NO_ERROR ? (unsigned char)letter : EOF;
}

static FILE log_file = FDEV_SETUP_STREAM(put, NULL, NULL, _FDEV_SETUP_WRITE);

FILE *const stdin = &log_file; /* of which a read is the end of the file */
FILE *const stdout = &log_file;
FILE *const stderr = &log_file;

/* The end of main, or a call of exit: what there is of a line is written too. */
_Noreturn void _exit(int status)
{
    enum xous_error error = output.page ? xous_flush_log(&output) : XOUS_NO_ERROR;

    (void)error; /* the log may be gone; the program ends all the same */
    xous_terminate_process(status);
}

/* The heap. It grows in pages, and what is given back stays for later. */

static char *heap_next, *heap_end;

void *sbrk(ptrdiff_t bytes)
{
    ptrdiff_t room = heap_end - heap_next;
    char *start = heap_next;

    if (bytes > room) {
        xous_word more = (bytes - room + XOUS_PAGE_SIZE - 1) / XOUS_PAGE_SIZE * XOUS_PAGE_SIZE;

        if (xous_grow_heap(more, &start) != XOUS_NO_ERROR) {
            errno = ENOMEM;
            return (void *)-1;
        }
        if (start != heap_end) /* a call of the program's own came between */
            heap_next = start;
        heap_end = start + more;
        start = heap_next;
    }
    heap_next += bytes;
    return start;
}

/* Threads. What is thread-local lies at the end of a thread's stack, and of the first thread in .bss (link.ld). */

extern char xous_tls_start[], xous_tls_data_size[], xous_tls_size[];

void *xous_make_thread_local(void *place)
{
    size_t data = (uintptr_t)xous_tls_data_size;

    memcpy(place, xous_tls_start, data);
    memset((char *)place + data, 0, (uintptr_t)xous_tls_size - data);
    return place;
}

enum xous_error xous_start_libc_thread(xous_word (*run)(xous_word), void *stack_end, xous_word argument,
                                       xous_word *thread)
{
    char *place = xous_make_thread_local((char *)stack_end - (uintptr_t)xous_tls_size);
    xous_word entry = (xous_word)xous_libc_thread;

    return xous_take_word(xous_create_thread(entry, (xous_word)place, argument, (xous_word)run, (xous_word)place, 0),
                          1, thread);
}
