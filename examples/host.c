/* A small host program: it dates a day, prints its places, sets the nine arms of a planet table, drives them over three
 * days on which Mars turns back, and by the mean places over the last three, dates a Saka lunar date, looks for the
 * Mondays with the Sun in the first degree, leafs through a year by lunar month, and writes an almanac and reads it
 * back. */
#include <stdio.h>
#include <stdlib.h>
#include <string.h>

#include "grahalaghava.h"

#if __STDC_VERSION__ >= 201112L
/* A list's length has 64 bits in the call, also on a machine whose size_t has 32. */
_Static_assert(_Generic(&graha_search,
                        uint32_t (*)(uint32_t, uint32_t, uint32_t, uint32_t, uint32_t, uint8_t *, uint64_t): 1,
                        default: 0),
               "the length of a list has 64 bits");
#endif

/* The search: all days of the table, a Sun arc of one degree from 0, Mondays. */
enum { FIRST = 0, LAST = 401599, SUN_START = 0, SUN_WIDTH = 3600, WEEKDAY = 0 };

/* Mars, and a day on which it turns back. */
enum { MARS = 4, STATION = 33830 };

static const char *const WEEKDAYS[7] = {"Monday", "Tuesday", "Wednesday", "Thursday", "Friday", "Saturday", "Sunday"};

static void print_date(uint32_t day)
{
    printf("day %u: %s %u-%02u-%02u\n", (unsigned)day, WEEKDAYS[graha_day_weekday(day)], (unsigned)graha_day_year(day),
           (unsigned)graha_day_month(day), (unsigned)graha_day_of_month(day));
}

static void print_places(uint32_t day)
{
    printf("  mean Sun %u, Moon %u, Mars %u, Jupiter %u, Saturn %u\n", (unsigned)graha_mean_sun(day),
           (unsigned)graha_mean_moon(day), (unsigned)graha_mean_mars(day), (unsigned)graha_mean_jupiter(day),
           (unsigned)graha_mean_saturn(day));
    uint32_t sun = graha_mean_sun(day);
    printf("  mean Sun %u degrees %u minutes %u seconds %u thirds\n", (unsigned)(sun / 3600), (unsigned)(sun / 60 % 60),
           (unsigned)(sun % 60), (unsigned)graha_mean_sun_thirds(day));
    printf("  true Sun %u, Moon %u; tithi %u, nakshatra %u, yoga %u, karana %u\n", (unsigned)graha_true_sun(day),
           (unsigned)graha_true_moon(day), (unsigned)graha_tithi(day), (unsigned)graha_nakshatra(day),
           (unsigned)graha_yoga(day), (unsigned)graha_karana(day));
}

/* The nine arms of a table: where each body stands, in degrees and minutes. */
static void print_arms(uint32_t day)
{
    static const struct {
        const char *name;
        uint32_t (*place)(uint32_t day);
    } ARMS[9] = {
        {"Sun", graha_true_sun},         {"Moon", graha_true_moon},       {"node", graha_moon_node},
        {"Mars", graha_true_mars},       {"Mercury", graha_true_mercury}, {"Jupiter", graha_true_jupiter},
        {"Venus", graha_true_venus},     {"Saturn", graha_true_saturn},   {"apogee", graha_moon_apogee},
    };
    for (int arm = 0; arm < 9; arm++) {
        uint32_t place = ARMS[arm].place(day);
        printf("  arm %d, %s: %u degrees %u minutes\n", arm + 1, ARMS[arm].name, (unsigned)(place / 3600), (unsigned)(place / 60 % 60));
    }
}

/* What a board holds of its arm: degrees, and degrees a day. */
typedef struct {
    double angle, rate;
} arm;

/* The arm after an order. (These orders are the library's own, and none is refused.) */
static arm carried_out(arm now, uint32_t order, double value)
{
    arm after = {graha_carry_out_angle(now.angle, now.rate, order, value),
                 graha_carry_out_rate(now.angle, now.rate, order, value)};
    return after;
}

/* The calls that give orders: those for the true places and those for the mean ones have the same types. */
typedef struct {
    uint32_t (*place_result)(uint32_t day, uint32_t body);
    uint32_t (*place_order)(uint32_t day, uint32_t body);
    double (*place_angle)(uint32_t day, uint32_t body);
    uint32_t (*follow_result)(uint32_t day, uint32_t body);
    uint32_t (*follow_order)(uint32_t day, uint32_t body);
    double (*follow_rate)(uint32_t day, uint32_t body);
} orders;

static const orders TRUE_PLACES = {graha_true_place_result,  graha_true_place_order,  graha_true_place_angle,
                                   graha_true_follow_result, graha_true_follow_order, graha_true_follow_rate};
static const orders MEAN_PLACES = {graha_place_result,  graha_place_order,  graha_place_angle,
                                   graha_follow_result, graha_follow_order, graha_follow_rate};

/* Drives nine arms for three days, one for each body: each day an arm is told to go to its angle, and then to run until
 * the next day, or to hold. */
static int drive_arms(const orders *given, uint32_t first)
{
    for (uint32_t body = 0; body < 9; body++) {
        arm driven = {0.0, 0.0};
        printf("  arm of body %u:", (unsigned)body);
        for (uint32_t day = first; day < first + 3; day++) {
            if (given->place_result(day, body) != GRAHA_ACCEPTED || given->follow_result(day, body) != GRAHA_ACCEPTED)
                return 0;
            uint32_t order = given->follow_order(day, body);
            driven = carried_out(driven, given->place_order(day, body), given->place_angle(day, body));
            driven = carried_out(driven, order, given->follow_rate(day, body));
            printf("%s at %.4f, ", day == first ? "" : ";", driven.angle);
            if (order == GRAHA_RUN)
                printf("run at %+.4f", driven.rate);
            else
                printf("hold");
        }
        printf("\n");
    }
    return 1;
}

/* An entry of the list: four bytes, low byte first. */
static uint32_t day_at(const uint8_t *list, size_t entry)
{
    const uint8_t *bytes = list + 4 * entry;
    return bytes[0] | (uint32_t)bytes[1] << 8 | (uint32_t)bytes[2] << 16 | (uint32_t)bytes[3] << 24;
}

/* What an operator leafs through: a row of month turns, which covers the days from day 0 on. */
typedef struct {
    uint32_t turns, covered;
    uint8_t list[4 * 1200];
} row;

/* Covers a day too, and nothing is reckoned twice. */
static uint32_t cover(row *months, uint32_t day)
{
    if (day < months->covered)
        return GRAHA_ACCEPTED;
    uint32_t days = day + 1 - months->covered;
    uint32_t turns = graha_months_extended_turns(months->turns, months->covered, days, sizeof months->list);
    uint32_t result = graha_months_extend(months->turns, months->covered, days, months->list, sizeof months->list);
    if (result == GRAHA_ACCEPTED) {
        months->turns = turns;
        months->covered += days;
    }
    return result;
}

/* Leafs from one month turn to the next, through the year from a day on. */
static uint32_t leaf(uint32_t first)
{
    static row months = {.turns = 0, .covered = 1};
    uint32_t seen = 0;
    for (uint32_t day = first; day < first + 365; day++) {
        uint32_t result = cover(&months, day);
        if (result == GRAHA_ACCEPTED)
            result = graha_month_result(months.turns, months.covered, day, months.list, sizeof months.list);
        if (result != GRAHA_ACCEPTED)
            return result;
        uint32_t number = graha_month_number(months.turns, months.covered, day, months.list, sizeof months.list);
        if (number == seen)
            continue;
        seen = number;
        printf("  month %u from ", (unsigned)number);
        print_date(graha_month_start(months.turns, months.covered, day, months.list, sizeof months.list));
    }
    return GRAHA_ACCEPTED;
}

static uint32_t search(uint8_t *list, size_t list_len)
{
    return graha_search(FIRST, LAST, SUN_START, SUN_WIDTH, WEEKDAY, list, list_len);
}

/* An almanac of twenty days in three blocks, written, read back, and refused where one byte has come over wrong. */
static int exchange_almanac(uint32_t first)
{
    enum { DAYS = 20, BLOCKS = 3, BLOCK = 512 };
    uint8_t file[BLOCKS * BLOCK], days[4 * DAYS];
    uint32_t bytes = graha_almanac_bytes(first, first + DAYS - 1);
    uint32_t written = graha_almanac_write(first, first + DAYS - 1, file, sizeof file);
    printf("an almanac of %d days: %u bytes, result %u\n", DAYS, (unsigned)bytes, (unsigned)written);
    if (written != GRAHA_ACCEPTED) return 0;
    uint32_t read = graha_almanac_read(file, bytes, days, sizeof days);
    printf("read back: result %u, %u days; the first and the last:\n", (unsigned)read, (unsigned)graha_almanac_days(file, bytes));
    if (read != GRAHA_ACCEPTED) return 0;
    print_date(day_at(days, 0));
    print_date(day_at(days, DAYS - 1));
    file[BLOCK + 100] ^= 1;
    printf("with a byte changed: result %u\n", (unsigned)graha_almanac_read(file, bytes, days, sizeof days));

    /* A controller has room for one block, and asks for the second once more. */
    uint8_t block[BLOCK];
    if (graha_almanac_block(first, first + DAYS - 1, 1, block, sizeof block) != GRAHA_ACCEPTED) return 0;
    memcpy(file + BLOCK, block, BLOCK);
    printf("with its second block sent again: result %u\n", (unsigned)graha_almanac_read(file, bytes, days, sizeof days));
    return 1;
}

int main(void)
{
    uint32_t result = graha_date_result(1612, 5, 14);
    if (result != GRAHA_ACCEPTED) {
        fprintf(stderr, "host: the date is refused: %u\n", (unsigned)result);
        return 1;
    }
    uint32_t day = graha_date_day(1612, 5, 14);
    print_date(day);
    print_places(day);
    print_arms(day);
    printf("three days around Mars' station, at the true places:\n");
    int driven = drive_arms(&TRUE_PLACES, STATION - 1);
    if (graha_true_follow_rate(STATION - 1, MARS) >= 0 && graha_true_follow_rate(STATION, MARS) < 0) {
        printf("Mars runs backwards from ");
        print_date(STATION);
    }
    printf("the last three days, at the mean places:\n");
    if (!driven || !drive_arms(&MEAN_PLACES, LAST - 2)) {
        fprintf(stderr, "host: an order is refused\n");
        return 1;
    }

    /* The first day of Saka 1555, a Friday. That year had an extra month, which was still to come. */
    result = graha_saka_pending_result(1555, 0, 0, 4, 1);
    if (result != GRAHA_ACCEPTED) {
        fprintf(stderr, "host: the Saka date is refused: %u\n", (unsigned)result);
        return 1;
    }
    printf("Saka 1555, no month and no tithi elapsed:\n");
    print_date(graha_saka_pending_day(1555, 0, 0, 4, 1));

    uint8_t two_days[8];
    result = search(two_days, sizeof two_days);
    uint32_t length = graha_search_length(FIRST, LAST, SUN_START, SUN_WIDTH, WEEKDAY);
    printf("a list of 2 days: result %u, %u days needed, %u looked at\n", (unsigned)result, (unsigned)length,
           (unsigned)graha_search_looked(FIRST, LAST, SUN_START, SUN_WIDTH, WEEKDAY));

    size_t list_len = 4 * (size_t)length;
    uint8_t *list = malloc(list_len);
    if (list == NULL) {
        fprintf(stderr, "host: no memory for %u days\n", (unsigned)length);
        return 1;
    }
    result = search(list, list_len);
    printf("a list of %u days: result %u; the first and the last:\n", (unsigned)length, (unsigned)result);
    if (result == GRAHA_ACCEPTED && length > 0) {
        print_date(day_at(list, 0));
        print_date(day_at(list, length - 1));
    }
    free(list);
    if (result != GRAHA_ACCEPTED) return 1;

    /* The days of the year from that date on which the mean Sun enters a sign: at most 366 / 30 + 1. */
    uint8_t entries[4 * 13];
    result = graha_sign_entries(day, day + 365, entries, sizeof entries);
    length = graha_sign_entries_length(day, day + 365);
    printf("the mean Sun enters a sign on %u days of the year: result %u; the first and the last:\n", (unsigned)length, (unsigned)result);
    if (result == GRAHA_ACCEPTED && length > 0) {
        print_date(day_at(entries, 0));
        print_date(day_at(entries, length - 1));
    }
    if (result != GRAHA_ACCEPTED) return 1;

    /* The same by the true Sun, as a calendar prints them. */
    result = graha_true_sign_entries(day, day + 365, entries, sizeof entries);
    length = graha_true_sign_entries_length(day, day + 365);
    printf("and the true Sun on %u: result %u; the first and the last:\n", (unsigned)length, (unsigned)result);
    if (result == GRAHA_ACCEPTED && length > 0) {
        print_date(day_at(entries, 0));
        print_date(day_at(entries, length - 1));
    }
    if (result != GRAHA_ACCEPTED) return 1;

    printf("the lunar months of the year:\n");
    if (leaf(day) != GRAHA_ACCEPTED) return 1;
    return exchange_almanac(day) ? 0 : 1;
}
