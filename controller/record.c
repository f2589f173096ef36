/* The calls of libhost.a for the second program on x86-64, each made of the proved archive (whose names have `real_`
 * before them here) and written down for replay.c: the call's number, its arguments, a list that it only reads (where
 * it is not the one read before), and what it handed back, low byte first; and for a list that it may write the first
 * byte written, how many there are, and these. make_calls.py writes record.inc, which has a function for each call of
 * the header.
 *
 * Which bytes of a list are written shows where the call is made once more, on a list in which every bit is turned: a
 * byte that comes out the same in both is written, and one that comes out turned is as it was. */
#include <stdio.h>
#include <stdlib.h>
#include <string.h>
#include <unistd.h>

#include "grahalaghava.h"

/* The calls are written to this file descriptor. */
enum { CALLS = 3, END = 255 };

static unsigned char waiting[1 << 20];
static size_t count;

static void stop(const char *why)
{
    fprintf(stderr, "controller/compare: %s\n", why);
    _exit(1);
}

static void flush(void)
{
    for (size_t at = 0; at < count;) {
        ssize_t written = write(CALLS, waiting + at, count - at);
        if (written <= 0)
            stop("the calls cannot be written on");
        at += (size_t)written;
    }
    count = 0;
}

static void put(const void *bytes, size_t length)
{
    for (const unsigned char *from = bytes; length > 0;) {
        size_t now = sizeof waiting - count < length ? sizeof waiting - count : length;
        memcpy(waiting + count, from, now);
        count += now;
        from += now;
        length -= now;
        if (count == sizeof waiting)
            flush();
    }
}

static void put_call(unsigned char number)
{
    put(&number, 1);
}

/* A list of its own, with every bit turned. */
static uint8_t *turned(const uint8_t *list, uint64_t length)
{
    uint8_t *other = malloc(length + 1);
    if (other == NULL)
        stop("no memory for a second list");
    for (uint64_t at = 0; at < length; at++)
        other[at] = list[at] ^ 0xFF;
    return other;
}

/* The bytes written of a list, by the two lists after the call. */
static void put_written(const uint8_t *list, uint8_t *other, uint64_t length)
{
    uint64_t first = 0, written = 0;
    while (first < length && list[first] + other[first] == 0xFF)
        first++;
    while (first + written < length && list[first + written] == other[first + written])
        written++;
    for (uint64_t at = first + written; at < length; at++)
        if (list[at] + other[at] != 0xFF)
            stop("a list is written in two places");
    put(&first, sizeof first);
    put(&written, sizeof written);
    put(list + first, written);
    free(other);
}

/* A list that is only read: 0 where it has the bytes of the one read before, else 1 and these. */
static inline void put_read(const uint8_t *list, uint64_t length)
{
    static uint8_t *before;
    static uint64_t length_before;
    unsigned char another = before == NULL || length != length_before || (length > 0 && memcmp(before, list, length) != 0);
    put(&another, 1);
    if (!another)
        return;
    put(list, length);
    free(before);
    before = malloc(length + 1);
    if (before == NULL)
        stop("no memory for a list that is read");
    for (uint64_t at = 0; at < length; at++)
        before[at] = list[at];
    length_before = length;
}

#include "record.inc"

__attribute__((destructor)) static void end(void)
{
    put_call(END);
    flush();
}
