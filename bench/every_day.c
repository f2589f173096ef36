/* The program find in plain C, which tests every day of the table: `every_day CONDITION...` prints the catalogue of the
 * days that match, as find does, with `print 1` by names in columns, with `print 2` as a comma-separated table.
 * Conditions are a name and a number, `edition 2`, or a set with a bit for each number,
 * `weekday 1`, `tithi 0x3000`, `nakshatra`, `yoga`, `karana`; or a name, a start and a width in seconds of arc,
 * `sun 122400 3600` of the mean Sun, `true_sun`, `true_moon`, `true_mars`, `true_mercury`, `true_jupiter`,
 * `true_venus`, `true_saturn` of true places, once or twice. */
#include "names.h"
#include "plain.h"
#include <stdio.h>
#include <stdlib.h>
#include <string.h>

enum { DAYS = 401600 };
static uint32_t list[DAYS];

int main(int count, char **word) {
    plain_query query = {.edition = 1};
    uint32_t print = 0;
    struct {
        const char *name;
        uint32_t *number;
        plain_arcs *arcs;
    } conditions[] = {
        {"print", &print, NULL},                    {"edition", &query.edition, NULL},          {"weekday", &query.weekdays, NULL},
        {"tithi", &query.tithis, NULL},
        {"nakshatra", &query.nakshatras, NULL},     {"yoga", &query.yogas, NULL},               {"karana", &query.karanas, NULL},
        {"sun", NULL, &query.mean_sun},             {"true_sun", NULL, &query.sun},             {"true_moon", NULL, &query.moon},
        {"true_mars", NULL, query.planets},         {"true_mercury", NULL, query.planets + 1},  {"true_jupiter", NULL, query.planets + 2},
        {"true_venus", NULL, query.planets + 3},    {"true_saturn", NULL, query.planets + 4},
    };
    const size_t names = sizeof conditions / sizeof *conditions;
    for (int at = 1; at < count;) {
        size_t i = 0;
        while (i < names && strcmp(word[at], conditions[i].name)) i++;
        if (i == names || at + (conditions[i].arcs ? 2 : 1) >= count || (conditions[i].arcs && conditions[i].arcs->arcs == 2)) {
            fprintf(stderr, "every_day: %s\n", word[at]);
            return 2;
        }
        if (conditions[i].number) {
            *conditions[i].number = (uint32_t)strtoul(word[at + 1], NULL, 0);
            at += 2;
        } else {
            plain_arcs *asked = conditions[i].arcs;
            asked->start[asked->arcs] = (uint32_t)strtoul(word[at + 1], NULL, 0);
            asked->width[asked->arcs++] = (uint32_t)strtoul(word[at + 2], NULL, 0);
            at += 3;
        }
    }
    uint32_t found = plain_find(&query, list);
    fprintf(print == 2 ? stderr : stdout, "found %u looked %u%s\n", found, (unsigned)DAYS, query.edition == 2 ? " edition 2" : "");
    puts(HEADINGS[print]);
    for (uint32_t i = 0; i < found; i++) {
        uint32_t day = list[i], limbs[4];
        plain_date date = plain_civil_date(day);
        plain_limbs(query.edition, day, limbs);
        const char *weekday = WEEKDAYS[day % 7], *tithi = TITHIS[limbs[0]], *nakshatra = NAKSHATRAS[limbs[1]];
        const char *yoga = YOGAS[limbs[2]], *karana = KARANAS[limbs[3] - 1];
        if (print == 0) {
            printf("%u %u-%u-%u %s %u %u %u %u\n", day, date.year, date.month, date.day, weekday, limbs[0], limbs[1], limbs[2], limbs[3]);
        } else if (print == 1) {
            printf("%6u  %04u-%02u-%02u  %-9s  %-19s  %-17s  %-10s  %s\n", day, date.year, date.month, date.day, weekday, tithi, nakshatra, yoga, karana);
        } else {
            plain_date iso = plain_iso_date(day);
            printf("%u,%04u-%02u-%02u,%04u-%02u-%02u,%u,\"%s\",%u,\"%s\",%u,\"%s\",%u,\"%s\",%u,\"%s\"\r\n", day, date.year, date.month, date.day,
                   iso.year, iso.month, iso.day, day % 7, weekday, limbs[0], tithi, limbs[1], nakshatra, limbs[2], yoga, limbs[3], karana);
        }
    }
    return 0;
}
