/* The programs day, saka and month in plain C, which take numbers as arguments and print what those do: `people day
 * EDITION DAY`, `people saka YEAR MONTHS TITHIS WEEKDAY`, and `people month EDITION FIRST DAYS` by names. */
#include "names.h"
#include "plain.h"
#include <stdio.h>
#include <stdlib.h>
#include <string.h>

static const char *const BODIES[] = {"sun", "moon", "apogee", "node", "mars", "mercury", "jupiter", "venus", "saturn"};
static const char *const SIGNS[] = {"mesha", "vrishabha", "mithuna", "karka", "simha", "kanya", "tula", "vrishchika", "dhanu", "makara", "kumbha", "mina"};

static void glance(uint32_t edition, uint32_t day) {
    plain_record r = {.day = day};
    plain_fill_records(edition, &r, 1);
    plain_date date = plain_civil_date(day), iso = plain_iso_date(day);
    printf("day %u\ndate %u-%u-%u\niso %04u-%02u-%02u\nweekday %u %s\ncycle %u day %u\nedition %u\n", day, date.year, date.month, date.day, iso.year,
           iso.month, iso.day, r.weekday, WEEKDAYS[r.weekday], day / 4016, day % 4016, edition);
    printf("tithi %u %s\nnakshatra %u %s\nyoga %u %s\nkarana %u %s\n", r.tithi, TITHIS[r.tithi], r.nakshatra, NAKSHATRAS[r.nakshatra], r.yoga, YOGAS[r.yoga],
           r.karana, KARANAS[r.karana - 1]);
    plain_month month = plain_month_on(edition, day);
    if (month.number) {
        plain_date began = plain_civil_date(month.start);
        printf("lunar month %u began %u %u-%u-%u\n", month.number, month.start, began.year, began.month, began.day);
    } else {
        printf("lunar month 0 began - -\n");
    }
    puts("body     mean       true       sign");
    uint32_t trues[] = {r.sun, r.moon, 0, 0, plain_true_mars(day), plain_true_mercury(day), plain_true_jupiter(day), plain_true_venus(day), plain_true_saturn(day)};
    for (int body = 0; body < 9; body++) {
        char mean[16], place[16] = "-";
        uint32_t m = r.longitudes[body], t = trues[body], seen = m;
        snprintf(mean, sizeof mean, "%u:%u:%u", m / 3600, m / 60 % 60, m % 60);
        if (body != 2 && body != 3) {
            seen = t;
            snprintf(place, sizeof place, "%u:%u:%u", t / 3600, t / 60 % 60, t % 60);
        }
        printf("%-7s  %-9s  %-9s  %s\n", BODIES[body], mean, place, SIGNS[seen / 108000]);
    }
}

static void saka(uint32_t year, uint32_t months, uint32_t tithis, uint32_t weekday) {
    for (uint32_t pending = 0; pending < 2; pending++) {
        uint32_t day = pending ? plain_saka_pending_day(year, months, tithis, weekday, 1) : plain_saka_day(year, months, tithis, weekday);
        uint32_t tithi = plain_tithi(day);
        plain_date date = plain_civil_date(day);
        printf("%s the mark: %u %u-%u-%u %s, tithi %u %s, asked %u %s: %s\n", pending ? "with" : "without", day, date.year, date.month, date.day,
               WEEKDAYS[day % 7], tithi, TITHIS[tithi], tithis, TITHIS[tithis], day % 7 == weekday && tithi == tithis ? "fits" : "does not fit");
    }
}

static void month(uint32_t edition, uint32_t first, uint32_t days) {
    puts("   day  date        weekday          sun       moon     apogee       node       mars    mercury    jupiter      venus     saturn"
         "   true_sun  true_moon  tithi                nakshatra          yoga        karana");
    for (uint32_t day = first; day < first + days; day++) {
        plain_record r = {.day = day};
        plain_fill_records(edition, &r, 1);
        plain_date date = plain_civil_date(day);
        printf("%6u  %04u-%02u-%02u  %-9s", day, date.year, date.month, date.day, WEEKDAYS[r.weekday]);
        for (int body = 0; body < 9; body++) printf("  %3u:%02u:%02u", r.longitudes[body] / 3600, r.longitudes[body] / 60 % 60, r.longitudes[body] % 60);
        printf("  %3u:%02u:%02u  %3u:%02u:%02u  %-19s  %-17s  %-10s  %s\n", r.sun / 3600, r.sun / 60 % 60, r.sun % 60, r.moon / 3600, r.moon / 60 % 60,
               r.moon % 60, TITHIS[r.tithi], NAKSHATRAS[r.nakshatra], YOGAS[r.yoga], KARANAS[r.karana - 1]);
    }
}

int main(int count, char **word) {
    uint32_t n[4] = {0};
    for (int i = 2; i < count && i < 6; i++) n[i - 2] = (uint32_t)strtoul(word[i], NULL, 10);
    if (count == 4 && !strcmp(word[1], "day")) glance(n[0], n[1]);
    else if (count == 6 && !strcmp(word[1], "saka")) saka(n[0], n[1], n[2], n[3]);
    else if (count == 5 && !strcmp(word[1], "month")) month(n[0], n[1], n[2]);
    else return 2;
    return 0;
}
