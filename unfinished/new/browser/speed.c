/* Times desk_find of the module as compiled for this machine: the page's text and how many searches are the arguments,
   and the nanoseconds of one search are printed. */
#include <inttypes.h>
#include <stdio.h>
#include <stdlib.h>
#include <string.h>
#include <time.h>

uint32_t desk_find(const uint8_t *text, uint64_t text_len, uint8_t *list, uint64_t list_len, uint8_t *counts, uint64_t counts_len);

static uint8_t list[4 * 401600], counts[8];

static uint64_t now(void) {
    struct timespec at;
    clock_gettime(CLOCK_MONOTONIC, &at);
    return (uint64_t)at.tv_sec * 1000000000 + (uint64_t)at.tv_nsec;
}

int main(int argc, char **argv) {
    if (argc != 3) return 2;
    uint64_t length = strlen(argv[1]), times = strtoull(argv[2], NULL, 10);
    for (uint64_t i = 0; i < times / 8 + 1; i++) desk_find((const uint8_t *)argv[1], length, list, sizeof list, counts, 8);
    uint64_t before = now();
    for (uint64_t i = 0; i < times; i++) desk_find((const uint8_t *)argv[1], length, list, sizeof list, counts, 8);
    printf("%" PRIu64 "\n", (now() - before) / times);
    return 0;
}
