/*
 * lent - buffers for the tests, where a byte read or written outside of them is seen.
 *
 * A field is some pages of memory between two pages without access: who touches those is stopped by the machine. A buffer
 * stands in its field at one of POSITIONS: 0 to 7 bytes behind a multiple of 8, up to the page behind the field, from the
 * page before it on, or, if it has length 0, nowhere: its pointer is null. A keeper or a row stands only where its alignment lets it.
 * Every byte of the field that is not the buffer's is watched.
 *
 * Include it first: it asks for the POSIX functions.
 */
#ifndef LENT_H
#define LENT_H

#define _DEFAULT_SOURCE
#include <signal.h>
#include <stdint.h>
#include <stdio.h>
#include <stdlib.h>
#include <string.h>
#include <sys/mman.h>
#include <unistd.h>

enum { OFFSETS = 8, TO_GUARD = OFFSETS, FROM_GUARD, NOWHERE, POSITIONS };
enum { MARGIN = 64, WATCHED = 0xA5 };
enum { ALIGNMENT = 4 };
enum { FAILED = 1, STOPPED = 2 };

/* Memory between two pages without access. */
struct field {
    uint8_t *bytes;
    size_t room;
};

/* A buffer in its field. */
struct lent {
    const struct field *field;
    uint8_t *bytes;
    size_t len;
};

/* Ends the program: the test cannot go on. */
static void stop(const char *why)
{
    fprintf(stderr, "lent: %s\n", why);
    exit(STOPPED);
}

/* The size of a page. */
static size_t page_size(void)
{
    long size = sysconf(_SC_PAGESIZE);

    if (size <= 0)
        stop("the size of a page is not known");
    return (size_t)size;
}

/* Makes the field as many pages as a buffer of this length needs at any position. */
static void fit(struct field *field, size_t len)
{
    size_t page = page_size();
    size_t room = (len + 2 * MARGIN + page - 1) / page * page;
    uint8_t *all;

    if (field->bytes != NULL && field->room == room)
        return;
    if (field->bytes != NULL && munmap(field->bytes - page, field->room + 2 * page) != 0)
        stop("memory cannot be given back");
    all = mmap(NULL, room + 2 * page, PROT_NONE, MAP_PRIVATE | MAP_ANONYMOUS, -1, 0);
    if (all == MAP_FAILED || mprotect(all + page, room, PROT_READ | PROT_WRITE) != 0)
        stop("there is no memory");
    field->bytes = all + page;
    field->room = room;
}

/* Where a buffer of this length stands. */
static uint8_t *at_position(const struct field *field, int position, size_t len)
{
    if (position == NOWHERE && len == 0)
        return NULL;
    if (position == FROM_GUARD)
        return field->bytes;
    if (position < OFFSETS)
        return field->bytes + MARGIN / 2 + position;
    return field->bytes + field->room - len;
}

/* The position, or the next one below it, at which a keeper or a row may stand. */
static int aligned(int position)
{
    return position < OFFSETS ? position - position % ALIGNMENT : position;
}

/* Puts a buffer with this content into the field. */
static struct lent lend(struct field *field, int position, const uint8_t *content, size_t len)
{
    struct lent one;

    fit(field, len);
    memset(field->bytes, WATCHED, field->room);
    one.field = field;
    one.bytes = at_position(field, position, len);
    one.len = len;
    if (len > 0)
        memcpy(one.bytes, content, len);
    return one;
}

/* Are these bytes all as they were set? */
static int untouched(const uint8_t *bytes, size_t n)
{
    return n == 0 || (bytes[0] == WATCHED && memcmp(bytes, bytes + 1, n - 1) == 0);
}

/* Is a byte of the field written that is not the buffer's? */
static int is_harmed(const struct lent *one)
{
    const struct field *field = one->field;
    size_t before;

    if (one->bytes == NULL)
        return !untouched(field->bytes, field->room);
    before = (size_t)(one->bytes - field->bytes);
    return !untouched(field->bytes, before) || !untouched(one->bytes + one->len, field->room - before - one->len);
}

/* Has the buffer this content? */
static int holds(const struct lent *one, const uint8_t *content)
{
    return one->len == 0 || memcmp(one->bytes, content, one->len) == 0;
}

/* Has the handler run at a touch of a page without access. */
static void on_touch(void (*handler)(int))
{
    struct sigaction action;

    memset(&action, 0, sizeof action);
    action.sa_handler = handler;
    sigemptyset(&action.sa_mask);
    if (sigaction(SIGSEGV, &action, NULL) != 0 || sigaction(SIGBUS, &action, NULL) != 0)
        stop("a touch of a page without access cannot be caught");
}

#endif
