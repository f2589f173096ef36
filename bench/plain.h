/* The same reckoning in plain C, as a good programmer writes it: the yardstick of the benchmark. It checks its input as
 * the host's calls do. */
#ifndef PLAIN_H
#define PLAIN_H
#include <stddef.h>
#include <stdint.h>

typedef struct {
    uint32_t day, weekday, longitudes[9], sun, moon, tithi, nakshatra, yoga, karana;
} plain_record;

typedef struct {
    uint64_t numerator;
    uint32_t day;
} plain_farthest;

plain_farthest plain_drift(uint32_t first, uint32_t last, uint32_t body);
uint32_t plain_fill_records(uint32_t edition, plain_record *records, uint64_t len);
uint32_t plain_mean_sun(uint32_t day);
uint32_t plain_mean_moon(uint32_t day);
uint32_t plain_moon_node(uint32_t day);
uint32_t plain_mean_sun_thirds(uint32_t day);
uint32_t plain_moon_node_thirds(uint32_t day);
uint32_t plain_mean_mars(uint32_t day);
uint32_t plain_cycle(uint32_t day);
uint32_t plain_within(uint32_t day);
uint32_t plain_weekday(uint32_t day);
uint32_t plain_true_mars(uint32_t day);
uint32_t plain_true_mercury(uint32_t day);
uint32_t plain_true_jupiter(uint32_t day);
uint32_t plain_true_venus(uint32_t day);
uint32_t plain_true_saturn(uint32_t day);
double plain_place_angle(uint32_t day, uint32_t body);
double plain_follow_rate(uint32_t day, uint32_t body);
/* By true places; of the apogee and the node by the mean ones. */
double plain_true_place_angle(uint32_t day, uint32_t body);
double plain_true_follow_rate(uint32_t day, uint32_t body);
uint32_t plain_true_sun(uint32_t day);
uint32_t plain_true_moon(uint32_t day);
uint32_t plain_tithi(uint32_t day);
uint32_t plain_nakshatra(uint32_t day);
uint32_t plain_yoga(uint32_t day);
uint32_t plain_karana(uint32_t day);
/* Tithi, nakshatra, yoga and karana in an edition. */
void plain_limbs(uint32_t edition, uint32_t day, uint32_t *limbs);
uint32_t plain_saka_day(uint32_t year, uint32_t months, uint32_t tithis, uint32_t weekday);
uint32_t plain_saka_pending_day(uint32_t year, uint32_t months, uint32_t tithis, uint32_t weekday, uint32_t pending);

typedef struct {
    uint32_t refusal, length, looked;
} plain_found;

/* One pass over the walk; the list must have an entry for each day of the span. */
plain_found plain_search(uint32_t first, uint32_t last, uint32_t start, uint32_t width, uint32_t weekday, uint8_t *list, size_t len);

/* The days after the first on which the mean Sun, or the true one, stands in another sign than the day before, by a
 * test of every day of the span. */
plain_found plain_sign_entries(uint32_t first, uint32_t last, uint8_t *list, size_t len);
plain_found plain_true_sign_entries(uint32_t first, uint32_t last, uint8_t *list, size_t len);

/* Lines of ISO dates to a list of days and back: 2^32 times the refusal's number, and how many entries or bytes were
 * written. A refusal writes nothing. */
uint64_t plain_dates_to_list(const uint8_t *text, size_t text_len, uint8_t *list, size_t list_len);
uint64_t plain_list_to_dates(const uint8_t *list, size_t list_len, uint8_t *text, size_t text_len);

typedef struct {
    uint32_t year, month, day;
} plain_date;

/* Julian up to 4 October 1582, Gregorian from 15 October 1582. */
plain_date plain_civil_date(uint32_t day);

/* Gregorian throughout. */
plain_date plain_iso_date(uint32_t day);

/* A row of month turns, extended and asked. */
uint32_t plain_months_extend(uint32_t turns, uint32_t covered, uint32_t days, uint8_t *list, size_t len);
uint32_t plain_month_number(uint32_t turns, uint32_t covered, uint32_t day, const uint8_t *list, size_t len);

/* An almanac file of the span, 512 bytes for each nine days, and what is read of one: the refusal, and the days in the
 * list. */
uint32_t plain_almanac_write(uint32_t first, uint32_t last, uint8_t *file, uint64_t file_len);
uint32_t plain_almanac_read(const uint8_t *file, uint64_t file_len, uint8_t *list, uint64_t list_len);

/* What a page asks for. Sets have a bit for each number, that of 0 the lowest; where a set is 0 or a body has no arc,
 * all will do. Of two arcs either will do. */
typedef struct {
    uint32_t arcs, start[2], width[2];
} plain_arcs;

typedef struct {
    uint32_t edition, weekdays, tithis, nakshatras, yogas, karanas;
    plain_arcs mean_sun, sun, moon, planets[5]; /* all but the first of true places; Mars, Mercury, Jupiter, Venus, Saturn */
} plain_query;

/* Tests every day of the table; the list must have room for each. How many match. */
uint32_t plain_find(const plain_query *query, uint32_t *list);

/* Tests every day of the span. */
plain_found plain_every_day(uint32_t first, uint32_t last, uint32_t start, uint32_t width, uint32_t weekday, uint8_t *list, size_t len);
#endif
