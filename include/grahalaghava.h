/* The calls of libhost.a: days, places, orders for the arms of a table and searches after the Grahalaghava, as plain
 * numbers.
 *
 * Days are 0 to 401599, from 19 March 1520 (Julian) to 13 October 2619 (Gregorian). Places are mean sunrise's at
 * Ujjain, in whole seconds of arc from 0 to 1295999. A call hands back one number, so each number of an answer has a
 * call of its own; a result is 0 or a refusal's number, and a number of a refused answer is 0. Every argument is
 * allowed. There is no state.
 *
 * docs/host.md has more: linking, the refusals, the list.
 */
#ifndef GRAHALAGHAVA_H
#define GRAHALAGHAVA_H

#include <stddef.h>
#include <stdint.h>

#ifdef __cplusplus
extern "C" {
#endif

/* What a result may be. */
enum {
    GRAHA_ACCEPTED = 0,
    GRAHA_NO_SUCH_DATE = 1,      /* no such civil date; 5 to 14 October 1582 are none */
    GRAHA_OUT_OF_RANGE = 2,      /* a day, a pair or a Saka year outside the table, or the step past its last day */
    GRAHA_BAD_INPUT = 3,         /* months, tithis or weekday of a Saka date; an order above 2 to be carried out */
    GRAHA_NO_SUCH_WEEKDAY = 4,   /* none of a Saka date's three days has the weekday */
    GRAHA_LAST_BEFORE_FIRST = 5, /* a span whose last day is before its first */
    GRAHA_BAD_CONDITION = 6,     /* a search's weekday, arc start or arc width */
    GRAHA_LIST_TOO_SHORT = 7,    /* more days than the list has entries, or more bytes than were lent */
    GRAHA_NO_EXTRA_MONTH = 8,    /* a Saka date's extra month is still to come, and none is reckoned */
    GRAHA_BAD_LENGTH = 9,        /* an almanac file of less than a block, or of another length than its first block demands */
    GRAHA_BAD_CHECKSUM = 10,     /* its first bad block: the checksum does not hold */
    GRAHA_BAD_INDEX = 11,        /* the block's index, or its number of days in the file */
    GRAHA_NOT_ZERO = 12,         /* a byte that should be zero */
    GRAHA_BAD_DAY = 13,          /* a day that is not the one after, or is none, or whose numbers are not its own */
    GRAHA_NO_SUCH_BODY = 16      /* a body above 8, of an order */
};

/* A civil date (year from 0 up, month 1 to 12, day from 1) to its day: Julian up to 4 October 1582, Gregorian from 15
 * October 1582.
 * Result 1: no such date; 2: a date outside the table. */
uint32_t graha_date_result(uint32_t year, uint32_t month, uint32_t day);
uint32_t graha_date_day(uint32_t year, uint32_t month, uint32_t day);

/* Of a day. Result 2: a day above 401599. Then every call below that takes a day gives 0, but for a result, which is
 * 2. */
uint32_t graha_day_result(uint32_t day);
/* Its civil date. */
uint32_t graha_day_year(uint32_t day);
uint32_t graha_day_month(uint32_t day);
uint32_t graha_day_of_month(uint32_t day);
/* Its pair, day = 4016 * cycle + within. */
uint32_t graha_day_cycle(uint32_t day);
uint32_t graha_day_within(uint32_t day);
/* 0 Monday to 6 Sunday. */
uint32_t graha_day_weekday(uint32_t day);

/* A pair (cycle 0 to 99, day within it 0 to 4015) to its day. Result 2: a pair outside these ranges. */
uint32_t graha_pair_result(uint32_t cycle, uint32_t within);
uint32_t graha_pair_day(uint32_t cycle, uint32_t within);

/* The pair of the day after a pair's. Result 2: a pair outside its ranges, or the last day's. */
uint32_t graha_next_result(uint32_t cycle, uint32_t within);
uint32_t graha_next_cycle(uint32_t cycle, uint32_t within);
uint32_t graha_next_within(uint32_t cycle, uint32_t within);

/* A Saka lunar date (year 1442 to 2541, months 0 to 11, tithis 0 to 29, all elapsed; weekday 0 Monday to 6 Sunday) to
 * its day.
 * Result 3: months, tithis or weekday out of range; 2: the year or the day found; 4: none of the three days has the
 * weekday. */
uint32_t graha_saka_result(uint32_t year, uint32_t months, uint32_t tithis, uint32_t weekday);
uint32_t graha_saka_day(uint32_t year, uint32_t months, uint32_t tithis, uint32_t weekday);
/* The same with one extra month (adhikamasa) fewer for any pending but 0: for a date before its year's extra month,
 * where that has been counted already. The tithi of the answer tells whether it has (docs/saka.md). Result 8, after 2
 * for the year and before 4: there is none to take. */
uint32_t graha_saka_pending_result(uint32_t year, uint32_t months, uint32_t tithis, uint32_t weekday, uint32_t pending);
uint32_t graha_saka_pending_day(uint32_t year, uint32_t months, uint32_t tithis, uint32_t weekday, uint32_t pending);

/* A day's nine mean places. */
uint32_t graha_mean_sun(uint32_t day);
uint32_t graha_mean_moon(uint32_t day);
uint32_t graha_moon_apogee(uint32_t day);
uint32_t graha_moon_node(uint32_t day);
uint32_t graha_mean_mars(uint32_t day);
uint32_t graha_mercury_anomaly(uint32_t day);
uint32_t graha_mean_jupiter(uint32_t day);
uint32_t graha_venus_anomaly(uint32_t day);
uint32_t graha_mean_saturn(uint32_t day);
/* The part of a second behind the whole seconds of each, in thirds, sixtieths of a second, rounded down: 0 to 59. */
uint32_t graha_mean_sun_thirds(uint32_t day);
uint32_t graha_mean_moon_thirds(uint32_t day);
uint32_t graha_moon_apogee_thirds(uint32_t day);
uint32_t graha_moon_node_thirds(uint32_t day);
uint32_t graha_mean_mars_thirds(uint32_t day);
uint32_t graha_mercury_anomaly_thirds(uint32_t day);
uint32_t graha_mean_jupiter_thirds(uint32_t day);
uint32_t graha_venus_anomaly_thirds(uint32_t day);
uint32_t graha_mean_saturn_thirds(uint32_t day);

/* A day's true Sun and Moon. */
uint32_t graha_true_sun(uint32_t day);
uint32_t graha_true_moon(uint32_t day);
/* Its true star planets. */
uint32_t graha_true_mars(uint32_t day);
uint32_t graha_true_mercury(uint32_t day);
uint32_t graha_true_jupiter(uint32_t day);
uint32_t graha_true_venus(uint32_t day);
uint32_t graha_true_saturn(uint32_t day);
/* Tithis elapsed, 0 to 29. */
uint32_t graha_tithi(uint32_t day);
/* Nakshatra and yoga, 0 to 26. */
uint32_t graha_nakshatra(uint32_t day);
uint32_t graha_yoga(uint32_t day);
/* Karana, 1 to 11: 1 to 7 in turn, and 8 to 11 fixed. */
uint32_t graha_karana(uint32_t day);

/* Orders for the arms of a table, whose boards take doubles: an order is one of these numbers, and a value. A body is
 * 0 Sun, 1 Moon, 2 Moon's apogee, 3 Moon's node, 4 Mars, 5 Mercury's anomaly, 6 Jupiter, 7 Venus' anomaly or 8 Saturn,
 * and stands at its mean place. Result 2: a day above 401599; 16: a body above 8. */
enum { GRAHA_HOLD = 0, GRAHA_GO = 1, GRAHA_RUN = 2 };
/* To place a body is to go to its angle: its seconds of arc divided by 3600, rounded once to the nearest double. At
 * least 0.0 and below 360.0, and exact where the seconds are a multiple of 225. The order is GRAHA_GO; where refused it
 * is GRAHA_HOLD, and the angle 0.0. */
uint32_t graha_place_result(uint32_t day, uint32_t body);
uint32_t graha_place_order(uint32_t day, uint32_t body);
double graha_place_angle(uint32_t day, uint32_t body);
/* To follow it is to run until the next day at its rate, in degrees a day: the short way to the next day's seconds,
 * negative backwards (half a circle is backwards), divided and rounded alike; at least -1.0 and below 14.0. On the last
 * day the order is to hold. The order is GRAHA_HOLD or GRAHA_RUN; the rate is 0.0 where the order is to hold, as it is
 * where refused. No angle and no rate of these is -0.0, a NaN or an infinity. */
uint32_t graha_follow_result(uint32_t day, uint32_t body);
uint32_t graha_follow_order(uint32_t day, uint32_t body);
double graha_follow_rate(uint32_t day, uint32_t body);
/* The same at the true places, for a table that shows the sky: of 0 Sun, 1 Moon, 4 Mars, 5 Mercury, 6 Jupiter, 7 Venus
 * and 8 Saturn the true place, of 2 and 3, the Moon's apogee and node, the mean one, which is all there is. Results,
 * orders and angles are as above; a rate is at least -2.0 and below 16.0, and negative for a planet that goes
 * backwards. */
uint32_t graha_true_place_result(uint32_t day, uint32_t body);
uint32_t graha_true_place_order(uint32_t day, uint32_t body);
double graha_true_place_angle(uint32_t day, uint32_t body);
uint32_t graha_true_follow_result(uint32_t day, uint32_t body);
uint32_t graha_true_follow_order(uint32_t day, uint32_t body);
double graha_true_follow_rate(uint32_t day, uint32_t body);
/* The state of an arm, its angle and its rate, after an order with its value, an angle or a rate. Holding leaves the
 * angle and makes the rate 0.0; going sets the angle and makes the rate 0.0; running sets the rate alone. Any doubles
 * are allowed, and are handed on as they are. Result 3: an order above 2; then both are 0.0. */
uint32_t graha_carry_out_result(double angle, double rate, uint32_t order, double value);
double graha_carry_out_angle(double angle, double rate, uint32_t order, double value);
double graha_carry_out_rate(double angle, double rate, uint32_t order, double value);

/* Every day from first to last, both counted, that has the weekday and whose mean Sun is in the arc from sun_start (up
 * to 1295999), sun_width seconds wide (1 to 1296000). With result 0 the days stand in the list, earliest first, four
 * bytes a day, low byte first, and the bytes behind them are as they were. With any other result the whole list is as
 * it was. list_len is in bytes; a tail under four is never written. Result 2: first or last above 401599; 5: last
 * before first; 6: weekday, start or width out of range; 7: more days than list_len / 4. */
uint32_t graha_search(uint32_t first, uint32_t last, uint32_t sun_start, uint32_t sun_width, uint32_t weekday,
                      uint8_t *list, uint64_t list_len);
/* How many days the search finds, however long a list: for results 0 and 7, else 0. */
uint32_t graha_search_length(uint32_t first, uint32_t last, uint32_t sun_start, uint32_t sun_width, uint32_t weekday);
/* How many days the search looks at to find them: for results 0 and 7, else 0. */
uint32_t graha_search_looked(uint32_t first, uint32_t last, uint32_t sun_start, uint32_t sun_width, uint32_t weekday);

/* Every day after first, up to last, on which the mean Sun stands in another sign of 30 degrees (108000 seconds) than
 * the day before. The list, its length and the bytes behind the days are as in the search. Result 2: first or last
 * above 401599; 5: last before first; 7: more days than list_len / 4.
 * A list of (last - first + 1) / 30 + 1 entries always does. */
uint32_t graha_sign_entries(uint32_t first, uint32_t last, uint8_t *list, uint64_t list_len);
/* How many these days are, however long a list: for results 0 and 7, else 0. */
uint32_t graha_sign_entries_length(uint32_t first, uint32_t last);
/* The same by the true Sun, by which calendars are printed.
 * A list of (last - first + 1) / 29 + 1 entries always does. */
uint32_t graha_true_sign_entries(uint32_t first, uint32_t last, uint8_t *list, uint64_t list_len);
uint32_t graha_true_sign_entries_length(uint32_t first, uint32_t last);

/* Leafing by lunar month. A month turns on a day whose tithi at sunrise is smaller than the day before's; day 0 is not
 * counted. The host keeps a row of the turns: their number, the number of days covered (from day 0 on; a new row has 0
 * turns and 1 day), and a list of the turns' days, four bytes each as in the search. list_len is in bytes; a tail under
 * four is no entry. Any numbers and any bytes are taken at their word.
 * Extends a row by so many days, 0 or more. With result 0 the new turns stand in the list behind the row's own, all
 * other bytes are as they were, and the row has graha_months_extended_turns turns and covered + days days. With any
 * other result the whole list is as it was. Result 2: covered not 1 to 401600, or a day past the last; 7: list_len / 4
 * is less than the turns. A list of days / 29 + 1 more entries always does. */
uint32_t graha_months_extend(uint32_t turns, uint32_t covered, uint32_t days, uint8_t *list, uint64_t list_len);
/* How many turns the row then has. For result 7 how many entries would do: turns, if these are too many already, else
 * the turns that the extended row would have. For result 2 it is 0. */
uint32_t graha_months_extended_turns(uint32_t turns, uint32_t covered, uint32_t days, uint64_t list_len);
/* The month of a covered day by a row: the latest turn at or before it, which is the last entry by place that is not
 * after it, and how many turns there were up to it, which is that place from 1. Where there is none both are 0, with
 * result 0. Result 2: covered not 1 to 401600, or a day not covered; 7: list_len / 4 is less than turns, and then the
 * number is turns. */
uint32_t graha_month_result(uint32_t turns, uint32_t covered, uint32_t day, const uint8_t *list, uint64_t list_len);
uint32_t graha_month_start(uint32_t turns, uint32_t covered, uint32_t day, const uint8_t *list, uint64_t list_len);
uint32_t graha_month_number(uint32_t turns, uint32_t covered, uint32_t day, const uint8_t *list, uint64_t list_len);

/* Almanac files: the days from first to last, both counted, in blocks of 512 bytes, up to nine days a block
 * (docs/almanac.md has the layout).
 * How many bytes the file of a span has: 512 for every nine days, and for what is left; 0 for a span that is
 * refused. */
uint32_t graha_almanac_bytes(uint32_t first, uint32_t last);
/* Writes the file. With result 0 it stands at the front of the bytes, and those behind it are as they were; with any
 * other result all are as they were.
 * Result 2: first or last above 401599; 5: last before first; 7: fewer bytes than graha_almanac_bytes. */
uint32_t graha_almanac_write(uint32_t first, uint32_t last, uint8_t *file, uint64_t file_len);
/* Writes one block of it, index from 0, likewise. Result 2: first or last above 401599, or an index behind the last
 * block; 5: last before first; 7: fewer than 512 bytes. */
uint32_t graha_almanac_block(uint32_t first, uint32_t last, uint32_t index, uint8_t *block, uint64_t block_len);
/* Reads a file. With result 0 its days stand in the list, as in the search; with any other result the whole list is as
 * it was, so that a file gives all its days or none.
 * Result 9: less than a block, or another length than its first block's number of days demands; by its first bad block
 * 10: the checksum; 11: the index, or the number of days; 12: a byte that should be zero; 13: a day that is not the one
 * after, or is none, or whose numbers are not its own; 7: more days than list_len / 4. */
uint32_t graha_almanac_read(const uint8_t *file, uint64_t file_len, uint8_t *list, uint64_t list_len);
/* How many days the file has, however long a list: for results 0 and 7, else 0. */
uint32_t graha_almanac_days(const uint8_t *file, uint64_t file_len);

#ifdef __cplusplus
}
#endif

#endif
