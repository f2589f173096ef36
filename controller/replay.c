/* Makes the calls that record.c wrote down (on standard input) of another machine's libhost.a, and compares every
 * number that is handed back and every byte of every list, and of the bytes on both sides of it (of a list that is only
 * read, when another is read, and at the end). Ends at the first difference with status 1, and also where the calls
 * break off, where a call of the header was never made, or one that takes a day alone not on every day. make_calls.py
 * writes replay.inc, which has a function for each call. */
#include <stdio.h>
#include <stdlib.h>
#include <string.h>

#include "grahalaghava.h"

enum { END = 255, DAYS = 401600, GUARD = 16 };

/* The almanac file of all days is the longest of what is lent. */
enum { LONGEST = (DAYS + 8) / 9 * 512 };

static void stop(const char *why)
{
    printf("%s\n", why);
    exit(1);
}

/* The calls as they come. */
static unsigned char waiting[1 << 16];
static size_t count, at;

static unsigned char next_byte(void)
{
    if (at == count) {
        count = fread(waiting, 1, sizeof waiting, stdin);
        at = 0;
        if (count == 0)
            stop("the calls break off");
    }
    return waiting[at++];
}

static uint64_t take(int bytes)
{
    uint64_t number = 0;
    for (int byte = 0; byte < bytes; byte++)
        number |= (uint64_t)next_byte() << 8 * byte;
    return number;
}

static inline double take_double(void)
{
    uint64_t bits = take(8);
    double number;
    memcpy(&number, &bits, sizeof number);
    return number;
}

static inline uint64_t bits_of(double number)
{
    uint64_t bits;
    memcpy(&bits, &number, sizeof bits);
    return bits;
}

/* What was handed back, here and on x86-64. */
static int same(uint64_t came, uint64_t expected)
{
    if (came != expected)
        printf("%llu is handed back, and on x86-64 %llu, ", (unsigned long long)came, (unsigned long long)expected);
    return came == expected;
}

/* The memory of a list, with bytes on both sides of it, at an address that is seldom a multiple of 4. */
static uint8_t memory[LONGEST + 4096];
static uint64_t lists, list_bytes;

static uint8_t pattern(size_t place)
{
    return (uint8_t)(place * 151 + 77);
}

static size_t list_start(uint64_t length)
{
    return GUARD + (size_t)(length % 7);
}

static uint8_t *lend(uint64_t length)
{
    if (length > sizeof memory - 2 * GUARD - 7)
        stop("a list is longer than the memory for it");
    size_t all = list_start(length) + (size_t)length + GUARD;
    for (size_t place = 0; place < all; place++)
        memory[place] = pattern(place);
    return memory + list_start(length);
}

/* Every byte: those that x86-64 wrote, and the pattern in all others. */
static int same_list(uint64_t length)
{
    uint64_t first = take(8), written = take(8);
    size_t start = list_start(length), all = start + (size_t)length + GUARD;
    if (first > length || written > length - first)
        stop("more is written than the list has");
    lists++;
    list_bytes += length;
    for (size_t place = 0; place < all; place++) {
        int is_written = place >= start + first && place - start - first < written;
        uint8_t expected = is_written ? next_byte() : pattern(place);
        if (memory[place] != expected) {
            printf("byte %ld of the list is %u, and on x86-64 %u, ", (long)place - (long)start, memory[place], expected);
            return 0;
        }
    }
    return 1;
}

/* The memory of a list that is only read, and what it must hold as long as it is lent. */
static uint8_t shown[sizeof memory], held[sizeof memory];
static uint64_t shown_length;

static void same_shown(void)
{
    if (memcmp(shown, held, list_start(shown_length) + (size_t)shown_length + GUARD) != 0)
        stop("a list that is only read is changed");
}

static inline const uint8_t *show(uint64_t length)
{
    if (length > sizeof shown - 2 * GUARD - 7)
        stop("a list is longer than the memory for it");
    size_t start = list_start(length);
    if (next_byte() == 0) {
        if (length != shown_length)
            stop("a list that is only read has another length");
        return shown + start;
    }
    same_shown();
    for (size_t place = start; place < start + length; place++)
        shown[place] = held[place] = next_byte();
    shown_length = length;
    lists++;
    list_bytes += length;
    return shown + start;
}

/* The days on which a call was made that takes a day alone, and how many they are. */
struct days {
    unsigned char seen[DAYS];
    uint32_t count;
};

static void see(struct days *days, uint32_t day)
{
    if (day < DAYS && !days->seen[day]) {
        days->seen[day] = 1;
        days->count++;
    }
}

#include "replay.inc"

int main(void)
{
    static uint64_t made[CALLS];
    uint64_t all = 0;
    for (unsigned char number; (number = next_byte()) != END; made[number]++, all++) {
        if (number >= CALLS)
            stop("no such call");
        if (!MAKE[number]())
            return 1;
    }
    same_shown();
    for (int number = 0; number < CALLS; number++) {
        if (made[number] == 0 || (EVERY_DAY[number] != NULL && EVERY_DAY[number]->count != DAYS)) {
            printf("%s was not called%s\n", NAMES[number], made[number] == 0 ? "" : " on every day");
            return 1;
        }
    }
    printf("%llu calls of %d functions and %llu bytes in %llu lists, no difference\n", (unsigned long long)all, CALLS, (unsigned long long)list_bytes,
           (unsigned long long)lists);
    return 0;
}
