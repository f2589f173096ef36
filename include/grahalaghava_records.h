/* The call of librecords.a: records of days, filled together. docs/month.md has an example.
 *
 * Places are mean sunrise's at Ujjain, in whole seconds of arc from 0 to 1295999. There is no state.
 */
#ifndef GRAHALAGHAVA_RECORDS_H
#define GRAHALAGHAVA_RECORDS_H

#include <stdint.h>

#ifdef __cplusplus
extern "C" {
#endif

/* A day's numbers. The mean places are those of 0 Sun, 1 Moon, 2 Moon's apogee, 3 Moon's node, 4 Mars, 5 Mercury's
 * anomaly, 6 Jupiter, 7 Venus' anomaly and 8 Saturn. */
struct graha_day_record {
    uint32_t day;           /* 0 to 401599; the call reads it and leaves it as it is */
    uint32_t weekday;       /* 0 Monday to 6 Sunday */
    uint32_t longitudes[9]; /* the mean places */
    uint32_t sun;           /* the true Sun */
    uint32_t moon;          /* the true Moon, in the edition asked for, as all that follows */
    uint32_t tithi;         /* tithis elapsed, 0 to 29 */
    uint32_t nakshatra;     /* 0 to 26 */
    uint32_t yoga;          /* 0 to 26 */
    uint32_t karana;        /* 1 to 11 */
};

/* Fills in the records of the days that stand in them, in any order, the same day twice too, by edition 1 or 2 of the
 * Moon's rule. Result 0; or 14: the edition is another; then 2: a day is above 401599. With any result but 0 every
 * record is as it was. count is the number of records, 64 bits on every machine; with 0 the pointer is not followed. */
uint32_t fill_records(uint32_t edition, struct graha_day_record *records, uint64_t count);

#ifdef __cplusplus
}
#endif

#endif
