/* The log: a server that owns the console (log.c), for programs of which several write. */
#ifndef XOUS_LOG_H
#define XOUS_LOG_H

#include "checked.h"

/* The server's name, and the ids of messages that have text: both are those of Rust's std for Xous. */
#define XOUS_LOG_SERVER XOUS_SERVER("xous-log-server ")
#define XOUS_LOG_TEXT 1u

/* A connection to the log, and a page in which text is lent to it, with the text of a line that isn't whole yet. */
struct xous_log {
    xous_word connection;
    char *page;
    xous_word used;
};

/* Waits until the server is there. */
XOUS_CHECKED xous_open_log(struct xous_log *log)
{
    xous_word *page = 0;
    enum xous_error error = xous_find_server(XOUS_LOG_SERVER, &log->connection);

    if (error == XOUS_NO_ERROR)
        error = xous_get_pages(XOUS_PAGE_SIZE, &page);
    log->page = (char *)page;
    log->used = 0;
    return error;
}

/* What there is of a line goes to the log. */
XOUS_CHECKED xous_flush_log(struct xous_log *log)
{
    xous_word used = log->used;

    log->used = 0;
    return used ? xous_lend(log->connection, XOUS_LOG_TEXT, log->page, XOUS_PAGE_SIZE, used) : XOUS_NO_ERROR;
}

/* Lines come to the console whole: they are lent at their ends, or when the page is full. */
XOUS_CHECKED xous_print_log(struct xous_log *log, const char *text)
{
    enum xous_error error = XOUS_NO_ERROR;

    for (; *text && error == XOUS_NO_ERROR; text++) {
        log->page[log->used++] = *text;
        if (*text == '\n' || log->used == XOUS_PAGE_SIZE)
            error = xous_flush_log(log);
    }
    return error;
}

#endif
