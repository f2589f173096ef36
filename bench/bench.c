/* Times the archive's calls side by side with plain C in one run, and prints ratios. `bench once NAME` makes one
 * search, or a call on a thousand days and two, for callgrind; `bench stack` prints the deepest stack of any call. */
#include "../include/grahalaghava.h"
#include "plain.h"
#include "turns.h"
#include <pthread.h>
#include <stdio.h>
#include <stdlib.h>
#include <string.h>

enum { DAYS = 401600, ROOM = 4 * DAYS };
static uint8_t list[ROOM], other[ROOM];
static volatile uint64_t sink;

static const uint32_t SPARSE = 3600, DENSE = 1296000;

/* A search of the whole span on a Monday, with so many bytes of list. */
static void ours(uint32_t width, size_t len) { sink += graha_search(0, DAYS - 1, 0, width, 0, list, len); }
static void plain(uint32_t width, size_t len) { sink += plain_search(0, DAYS - 1, 0, width, 0, other, len).length; }
static void every(uint32_t width, size_t len) { sink += plain_every_day(0, DAYS - 1, 0, width, 0, other, len).length; }

/* The sign entries of the whole span, by the mean Sun and by the true one. */
static void signs(uint32_t unused, size_t len) { (void)unused, sink += graha_sign_entries(0, DAYS - 1, list, len); }
static void plain_signs(uint32_t unused, size_t len) { (void)unused, sink += plain_sign_entries(0, DAYS - 1, other, len).length; }
static void true_signs(uint32_t unused, size_t len) { (void)unused, sink += graha_true_sign_entries(0, DAYS - 1, list, len); }
static void plain_true_signs(uint32_t unused, size_t len) { (void)unused, sink += plain_true_sign_entries(0, DAYS - 1, other, len).length; }

/* The month turns of the whole span at once; and the month of a day in every cycle, on the whole row. */
enum { TURNS = 13600 };
static void turns(uint32_t unused, size_t len) { (void)unused, sink += graha_months_extend(0, 1, DAYS - 1, list, len); }
static void plain_turns(uint32_t unused, size_t len) { (void)unused, sink += plain_months_extend(0, 1, DAYS - 1, other, len); }
static void months_asked(uint32_t unused, size_t len) {
    (void)unused;
    for (uint32_t day = 0; day < DAYS; day += 4016) sink += graha_month_number(TURNS, DAYS, day, list, len);
}
static void plain_months_asked(uint32_t unused, size_t len) {
    (void)unused;
    for (uint32_t day = 0; day < DAYS; day += 4016) sink += plain_month_number(TURNS, DAYS, day, other, len);
}

typedef uint32_t (*number)(uint32_t);

static void all_days(number f) {
    uint64_t sum = 0;
    for (uint32_t day = 0; day < DAYS; day++) sum += f(day);
    sink += sum;
}

/* A Saka date for a number, and for every second one an extra month still to come. */
static uint32_t saka(uint32_t n) { return graha_saka_day(1442 + n % 1100, n % 12, n % 30, n % 7); }
static uint32_t saka_plain(uint32_t n) { return plain_saka_day(1442 + n % 1100, n % 12, n % 30, n % 7); }
static uint32_t pending(uint32_t n) { return graha_saka_pending_day(1442 + n % 1100, n % 12, n % 30, n % 7, n % 2); }
static uint32_t pending_plain(uint32_t n) { return plain_saka_pending_day(1442 + n % 1100, n % 12, n % 30, n % 7, n % 2); }

/* Calls whose instructions are counted, on days from all over the table. */
static const struct {
    const char *name;
    number ours, plain;
} COUNTED[] = {{"nakshatra", graha_nakshatra, plain_nakshatra},
               {"jupiter", graha_true_jupiter, plain_true_jupiter},
               {"venus", graha_true_venus, plain_true_venus},
               {"saka", saka, saka_plain}};

static int counted(const char *name) {
    int plain = !strncmp(name, "plain-", 6);
    for (size_t row = 0; row < sizeof COUNTED / sizeof COUNTED[0]; row++)
        if (!strcmp(name + 6 * plain, COUNTED[row].name)) {
            number call = plain ? COUNTED[row].plain : COUNTED[row].ours;
            for (uint32_t day = 0; day < DAYS; day += DAYS / 1000) sink += call(day);
            return 1;
        }
    return 0;
}

/* Thirty records in one call, from every thirtieth day on. The call is of an archive of its own, records. */
uint32_t fill_records(uint32_t edition, plain_record *records, uint64_t len);

enum { MONTH = 30 };
static plain_record month[MONTH], other_month[MONTH];

static void all_months(uint32_t (*fill)(uint32_t, plain_record *, uint64_t), uint32_t edition, plain_record *records) {
    uint64_t sum = 0;
    for (uint32_t first = 0; first + MONTH <= DAYS; first += MONTH) {
        for (uint32_t i = 0; i < MONTH; i++) records[i].day = first + i;
        sum += fill(edition, records, MONTH) + records[MONTH - 1].karana;
    }
    sink += sum;
}
static void months(uint32_t edition, size_t unused) { (void)unused, all_months(fill_records, edition, month); }
static void plain_months(uint32_t edition, size_t unused) { (void)unused, all_months(plain_fill_records, edition, other_month); }

/* The three drifts over the whole span; of each side one is handed back. The call is of the comparison's archive,
 * bridge. */
uint64_t bridge_drift_numerator(uint32_t first, uint32_t last, uint32_t body);
static void drifts(uint32_t body, size_t unused) { (void)unused, sink += bridge_drift_numerator(0, DAYS - 1, body); }
static void plain_drifts(uint32_t body, size_t unused) { (void)unused, sink += plain_drift(0, DAYS - 1, body).numerator; }

/* 4,096 dates to days and back. The calls are of the comparison's archive, bridge. */
uint64_t bridge_dates_to_list(const uint8_t *text, size_t text_len, uint8_t *list, size_t list_len);
uint64_t bridge_list_to_dates(const uint8_t *list, size_t list_len, uint8_t *text, size_t text_len);

enum { LINES = 4096, LINE = 11 };
static uint8_t dates[LINE * LINES], other_dates[LINE * LINES];
static void to_days(uint32_t unused, size_t len) { (void)unused, sink += bridge_dates_to_list(dates, sizeof dates, list, len); }
static void plain_to_days(uint32_t unused, size_t len) { (void)unused, sink += plain_dates_to_list(dates, sizeof dates, other, len); }
static void to_dates(uint32_t unused, size_t len) { (void)unused, sink += bridge_list_to_dates(list, 4 * LINES, dates, len); }
static void plain_to_dates(uint32_t unused, size_t len) { (void)unused, sink += plain_list_to_dates(list, 4 * LINES, other_dates, len); }

/* The almanac file of the whole span, written, and read into a list with an entry for each day. */
enum { ALMANAC = (DAYS + 8) / 9 * 512 };
static uint8_t almanac[ALMANAC], other_almanac[ALMANAC];
static void almanac_written(uint32_t unused, size_t len) { (void)unused, sink += graha_almanac_write(0, DAYS - 1, almanac, len); }
static void plain_almanac_written(uint32_t unused, size_t len) { (void)unused, sink += plain_almanac_write(0, DAYS - 1, other_almanac, len); }
static void almanac_taken(uint32_t unused, size_t len) { (void)unused, sink += graha_almanac_read(almanac, len, list, ROOM); }
static void plain_almanac_taken(uint32_t unused, size_t len) { (void)unused, sink += plain_almanac_read(other_almanac, len, other, ROOM); }

/* An angle or a rate of each body on each day. */
typedef double (*degrees)(uint32_t, uint32_t);

static void all_bodies(degrees f) {
    double sum = 0.0;
    for (uint32_t day = 0; day < DAYS; day++)
        for (uint32_t body = 0; body < 9; body++) sum += f(day, body);
    sink += (uint64_t)sum;
}
static void angles(uint32_t plain, size_t unused) { (void)unused, all_bodies(plain ? plain_place_angle : graha_place_angle); }
static void rates(uint32_t plain, size_t unused) { (void)unused, all_bodies(plain ? plain_follow_rate : graha_follow_rate); }
static void true_angles(uint32_t plain, size_t unused) { (void)unused, all_bodies(plain ? plain_true_place_angle : graha_true_place_angle); }
static void true_rates(uint32_t plain, size_t unused) { (void)unused, all_bodies(plain ? plain_true_follow_rate : graha_true_follow_rate); }

/* Whether two calls agree on every body and day. */
static int alike(degrees f, degrees g) {
    for (uint32_t day = 0; day < DAYS; day++)
        for (uint32_t body = 0; body < 9; body++)
            if (f(day, body) != g(day, body)) return 0;
    return 1;
}

typedef struct {
    const char *name;
    void (*search)(uint32_t, size_t);
    uint32_t width;
    size_t len;
    number call;
} job;

static void run(const void *of) {
    const job *j = of;
    if (j->search) j->search(j->width, j->len);
    else all_days(j->call);
}

static void pair(const char *what, job a, job b, double most) { in_turns(what, run, &a, &b, most); }

static job search_job(void (*f)(uint32_t, size_t), uint32_t width, size_t len) { return (job){"", f, width, len, NULL}; }
static job call_job(number f) { return (job){"", NULL, 0, 0, f}; }

static size_t needed(uint32_t width) { return 4 * (size_t)graha_search_length(0, DAYS - 1, 0, width, 0); }

static void *nothing(void *unused) { return unused; }
static void *search_all(void *unused) {
    ours(SPARSE, ROOM);
    ours(SPARSE, needed(SPARSE));
    ours(DENSE, needed(DENSE));
    sink += graha_search_length(0, DAYS - 1, 0, SPARSE, 0) + graha_search_looked(0, DAYS - 1, 0, SPARSE, 0);
    signs(0, ROOM);
    true_signs(0, ROOM);
    sink += graha_sign_entries_length(0, DAYS - 1) + graha_true_sign_entries_length(0, DAYS - 1);
    turns(0, 4 * TURNS);
    sink += graha_months_extended_turns(0, 1, DAYS - 1, 4 * TURNS) + graha_month_result(TURNS, DAYS, 7, list, 4 * TURNS) +
            graha_month_start(TURNS, DAYS, 7, list, 4 * TURNS) + graha_month_number(TURNS, DAYS, 7, list, 4 * TURNS);
    return unused;
}
static void *places(void *unused) {
    sink += graha_mean_sun(7) + graha_mean_moon(7) + graha_moon_apogee(7) + graha_moon_node(7) + graha_mean_mars(7) + graha_mercury_anomaly(7) +
            graha_mean_jupiter(7) + graha_venus_anomaly(7) + graha_mean_saturn(7) + graha_mean_sun_thirds(7) + graha_mean_moon_thirds(7) +
            graha_moon_apogee_thirds(7) + graha_moon_node_thirds(7) + graha_mean_mars_thirds(7) + graha_mercury_anomaly_thirds(7) +
            graha_mean_jupiter_thirds(7) + graha_venus_anomaly_thirds(7) + graha_mean_saturn_thirds(7) + graha_true_sun(7) + graha_true_moon(7) + graha_true_mars(7) +
            graha_true_mercury(7) + graha_true_jupiter(7) + graha_true_venus(7) + graha_true_saturn(7) + graha_tithi(7) + graha_nakshatra(7) + graha_yoga(7) + graha_karana(7);
    return unused;
}
static void *almanacs(void *unused) {
    almanac_written(0, ALMANAC);
    almanac_taken(0, ALMANAC);
    sink += graha_almanac_bytes(0, DAYS - 1) + graha_almanac_block(0, DAYS - 1, 7, almanac, 512) + graha_almanac_days(almanac, ALMANAC);
    return unused;
}
static void *orders(void *unused) {
    sink += graha_place_result(7, 5) + graha_place_order(7, 5) + graha_follow_result(7, 5) + graha_follow_order(7, 5) +
            (uint64_t)(graha_place_angle(7, 5) + graha_follow_rate(7, 5));
    sink += graha_true_place_result(7, 5) + graha_true_place_order(7, 5) + graha_true_follow_result(7, 5) + graha_true_follow_order(7, 5) +
            (uint64_t)(graha_true_place_angle(7, 5) + graha_true_follow_rate(7, 5));
    sink += graha_carry_out_result(1.0, 0.0, 2, 0.5) + (uint64_t)(graha_carry_out_angle(1.0, 0.0, 2, 0.5) + graha_carry_out_rate(1.0, 0.0, 2, 0.5));
    return unused;
}
static void *calendar(void *unused) {
    sink += graha_date_result(1612, 5, 14) + graha_date_day(1612, 5, 14) + graha_day_result(7) + graha_day_year(7) + graha_day_month(7) +
            graha_day_of_month(7) + graha_day_cycle(7) + graha_day_within(7) + graha_day_weekday(7) + graha_pair_result(0, 7) + graha_pair_day(0, 7) +
            graha_next_result(0, 7) + graha_next_cycle(0, 7) + graha_next_within(0, 7) + graha_saka_result(1534, 1, 14, 0) +
            graha_saka_day(1534, 1, 14, 0) + graha_saka_pending_result(1555, 0, 0, 4, 1) + graha_saka_pending_day(1555, 0, 0, 4, 1);
    return unused;
}

/* Bytes of stack that a thread with nothing else on its stack has touched. */
static size_t depth(void *(*work)(void *)) {
    enum { STACK = 1 << 20 };
    static _Alignas(4096) uint8_t stack[STACK];
    memset(stack, 0xA5, STACK);
    pthread_attr_t attributes;
    pthread_t thread;
    pthread_attr_init(&attributes);
    if (pthread_attr_setstack(&attributes, stack, STACK) || pthread_create(&thread, &attributes, work, NULL)) exit(1);
    pthread_join(thread, NULL);
    size_t low = 0;
    while (low < STACK && stack[low] == 0xA5) low++;
    return STACK - low;
}

int main(int count, char **word) {
    if (count == 3 && !strcmp(word[1], "once")) {
        if (!strcmp(word[2], "sparse")) ours(SPARSE, ROOM);
        else if (!strcmp(word[2], "short")) ours(SPARSE, needed(SPARSE));
        else if (!strcmp(word[2], "dense")) ours(DENSE, ROOM);
        else if (!strcmp(word[2], "plain-sparse")) plain(SPARSE, ROOM);
        else if (!strcmp(word[2], "plain-dense")) plain(DENSE, ROOM);
        else return counted(word[2]) ? 0 : 2;
        return 0;
    }
    if (count == 2 && !strcmp(word[1], "looked")) {
        printf("%u %u\n", graha_search_looked(0, DAYS - 1, 0, SPARSE, 0), graha_search_looked(0, DAYS - 1, 0, DENSE, 0));
        return 0;
    }
    if (count == 2 && !strcmp(word[1], "stack")) {
        size_t base = depth(nothing), a = depth(search_all) - base, b = depth(places) - base, c = depth(calendar) - base, d = depth(orders) - base,
               e = depth(almanacs) - base;
        printf("deepest stack: search %zu bytes (at most 4096), places %zu, calendar %zu, orders %zu, almanacs %zu bytes (at most 2048)\n", a, b, c, d, e);
        return 0;
    }
    head("whole span, Mondays");
    pair("sparse search, an entry for each day", search_job(ours, SPARSE, ROOM), search_job(plain, SPARSE, ROOM), 1.1);
    pair("sparse search, a list that just fits", search_job(ours, SPARSE, needed(SPARSE)), search_job(plain, SPARSE, ROOM), 1.15);
    pair("sparse search, a list of 1000 entries", search_job(ours, SPARSE, 4000), search_job(plain, SPARSE, ROOM), 1.15);
    pair("sparse search, refused: an entry short", search_job(ours, SPARSE, needed(SPARSE) - 4), search_job(plain, SPARSE, ROOM), 1.1);
    pair("dense search, an entry for each day", search_job(ours, DENSE, ROOM), search_job(plain, DENSE, ROOM), 1.1);
    pair("dense search, a list that just fits", search_job(ours, DENSE, needed(DENSE)), search_job(plain, DENSE, ROOM), 2.0);
    pair("dense search, refused: an entry short", search_job(ours, DENSE, needed(DENSE) - 4), search_job(plain, DENSE, ROOM), 1.1);
    pair("sparse search, against a test of every day", search_job(ours, SPARSE, ROOM), search_job(every, SPARSE, ROOM), -50);
    size_t signs_needed = 4 * (size_t)graha_sign_entries_length(0, DAYS - 1);
    pair("sign entries, against a test of every day", search_job(signs, 0, ROOM), search_job(plain_signs, 0, ROOM), -8);
    if (memcmp(list, other, signs_needed)) {
        puts("the two lists of sign entries differ");
        return 1;
    }
    pair("sign entries, a list that just fits", search_job(signs, 0, signs_needed), search_job(plain_signs, 0, ROOM), -8);
    signs_needed = 4 * (size_t)graha_true_sign_entries_length(0, DAYS - 1);
    pair("true sign entries, against a test of every day", search_job(true_signs, 0, ROOM), search_job(plain_true_signs, 0, ROOM), -8);
    if (memcmp(list, other, signs_needed)) {
        puts("the two lists of the true Sun's sign entries differ");
        return 1;
    }
    pair("true sign entries, a list that just fits", search_job(true_signs, 0, signs_needed), search_job(plain_true_signs, 0, ROOM), -8);
    pair("month turns, an entry for each day", search_job(turns, 0, ROOM), search_job(plain_turns, 0, ROOM), 1.1);
    pair("month turns, a list that just fits", search_job(turns, 0, 4 * TURNS), search_job(plain_turns, 0, 4 * TURNS), 1.1);
    pair("the month of a day in every cycle", search_job(months_asked, 0, 4 * TURNS), search_job(plain_months_asked, 0, 4 * TURNS), 1.1);
    if (memcmp(list, other, 4 * TURNS)) {
        puts("the two rows of month turns differ");
        return 1;
    }
    head("each of 401,600 days");
    pair("mean Sun", call_job(graha_mean_sun), call_job(plain_mean_sun), 1.1);
    pair("mean Moon", call_job(graha_mean_moon), call_job(plain_mean_moon), 1.1);
    pair("Moon's node", call_job(graha_moon_node), call_job(plain_moon_node), 1.1);
    pair("mean Mars", call_job(graha_mean_mars), call_job(plain_mean_mars), 1.1);
    pair("thirds of the mean Sun", call_job(graha_mean_sun_thirds), call_job(plain_mean_sun_thirds), 1.1);
    pair("thirds of the Moon's node", call_job(graha_moon_node_thirds), call_job(plain_moon_node_thirds), 1.1);
    pair("cycle", call_job(graha_day_cycle), call_job(plain_cycle), 1.1);
    pair("day within the cycle", call_job(graha_day_within), call_job(plain_within), 1.1);
    pair("weekday", call_job(graha_day_weekday), call_job(plain_weekday), 1.1);
    pair("true Sun", call_job(graha_true_sun), call_job(plain_true_sun), 1.1);
    pair("true Moon", call_job(graha_true_moon), call_job(plain_true_moon), 1.1);
    pair("true Mars", call_job(graha_true_mars), call_job(plain_true_mars), 1.1);
    pair("true Mercury", call_job(graha_true_mercury), call_job(plain_true_mercury), 1.1);
    pair("true Jupiter", call_job(graha_true_jupiter), call_job(plain_true_jupiter), 1.1);
    pair("true Venus", call_job(graha_true_venus), call_job(plain_true_venus), 1.1);
    pair("true Saturn", call_job(graha_true_saturn), call_job(plain_true_saturn), 1.1);
    pair("tithi", call_job(graha_tithi), call_job(plain_tithi), 1.1);
    pair("nakshatra", call_job(graha_nakshatra), call_job(plain_nakshatra), 1.1);
    pair("yoga", call_job(graha_yoga), call_job(plain_yoga), 1.1);
    pair("karana", call_job(graha_karana), call_job(plain_karana), 1.1);
    pair("Saka date", call_job(saka), call_job(saka_plain), 1.1);
    pair("Saka date, an extra month pending or not", call_job(pending), call_job(pending_plain), 1.1);
    pair("thirty records at one go, edition 1", search_job(months, 1, 0), search_job(plain_months, 1, 0), 1.1);
    pair("thirty records at one go, edition 2", search_job(months, 2, 0), search_job(plain_months, 2, 0), 1.1);
    pair("how far from the older books, over all days", search_job(drifts, 1, 0), search_job(plain_drifts, 1, 0), 1.1);
    for (uint32_t body = 0; body < 3; body++)
        if (bridge_drift_numerator(0, DAYS - 1, body) != plain_drift(0, DAYS - 1, body).numerator) {
            puts("the two drifts differ");
            return 1;
        }
    for (uint32_t i = 0; i < LINES; i++) {
        uint32_t day = i * 98;
        for (int byte = 0; byte < 4; byte++) list[4 * i + byte] = (uint8_t)(day >> 8 * byte);
    }
    pair("4,096 days to dates", search_job(to_dates, 0, sizeof dates), search_job(plain_to_dates, 0, sizeof other_dates), 1.1);
    pair("4,096 dates to days", search_job(to_days, 0, 4 * LINES), search_job(plain_to_days, 0, 4 * LINES), 1.1);
    if (memcmp(dates, other_dates, sizeof dates) || memcmp(list, other, 4 * LINES)) {
        puts("the two lists of dates differ");
        return 1;
    }
    pair("an almanac of all days, written", search_job(almanac_written, 0, ALMANAC), search_job(plain_almanac_written, 0, ALMANAC), 1.1);
    pair("an almanac of all days, read", search_job(almanac_taken, 0, ALMANAC), search_job(plain_almanac_taken, 0, ALMANAC), 1.1);
    if (graha_almanac_days(almanac, ALMANAC) != DAYS || memcmp(almanac, other_almanac, ALMANAC) || memcmp(list, other, 4 * DAYS)) {
        puts("the two almanacs differ");
        return 1;
    }
    pair("nine arms placed", search_job(angles, 0, 0), search_job(angles, 1, 0), 1.1);
    pair("nine arms followed", search_job(rates, 0, 0), search_job(rates, 1, 0), 1.1);
    pair("nine arms placed by true places", search_job(true_angles, 0, 0), search_job(true_angles, 1, 0), 1.1);
    pair("nine arms followed by true places", search_job(true_rates, 0, 0), search_job(true_rates, 1, 0), 1.1);
    if (!alike(graha_place_angle, plain_place_angle) || !alike(graha_follow_rate, plain_follow_rate) ||
        !alike(graha_true_place_angle, plain_true_place_angle) || !alike(graha_true_follow_rate, plain_true_follow_rate)) {
        puts("the two arms differ");
        return 1;
    }
    if (memcmp(month, other_month, sizeof month)) {
        puts("the two months differ");
        return 1;
    }
    size_t same = needed(SPARSE);
    ours(SPARSE, ROOM);
    plain(SPARSE, ROOM);
    if (memcmp(list, other, same)) {
        puts("the two searches differ");
        return 1;
    }
    return 0;
}
