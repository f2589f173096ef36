#include "plain.h"

#define CIRCLE 1296000u
#define LAST 401599u

static inline uint32_t mean(uint32_t day, uint32_t k, uint32_t d, uint64_t p, uint64_t q) {
    uint32_t c = day / 4016, a = day % 4016;
    return (uint32_t)((k + c * (CIRCLE - d) + a * p / q) % CIRCLE);
}

static inline uint32_t thirds(uint32_t day, uint64_t p, uint32_t q) { return (uint32_t)(day % 4016 * p % q) * 60 / q; }

static inline uint32_t sun(uint32_t day) { return mean(day, 1258860, 6551, 124186, 35); }
static inline uint32_t moon(uint32_t day) { return mean(day, 1256760, 13571, 5644749, 119); }
static inline uint32_t apogee(uint32_t day) { return mean(day, 603180, 981900, 2806, 7); }

static inline uint32_t past(uint32_t a, uint32_t b) { return (a + CIRCLE - b) % CIRCLE; }

static inline uint32_t equation(uint32_t x, uint64_t scale, uint64_t divisor) {
    uint64_t s = x <= 324000 ? x : x <= 648000 ? 648000 - x : x <= 972000 ? x - 648000 : CIRCLE - x;
    uint64_t q = s * (648000 - s);
    return (uint32_t)(scale * q / (divisor - q));
}

static inline uint32_t with(uint32_t at, uint32_t x, uint32_t size) { return x <= 648000 ? (at + size) % CIRCLE : (at + CIRCLE - size) % CIRCLE; }

static inline uint32_t corrected(uint32_t at, uint32_t apo, uint64_t scale, uint64_t divisor) {
    uint32_t x = past(apo, at);
    return with(at, x, equation(x, scale, divisor));
}

static inline uint32_t true_sun(uint32_t day) { return corrected(sun(day), 280800, 32400, 538526880000u); }
static inline uint32_t true_moon(uint32_t day) { return corrected(moon(day), apogee(day), 72000, 522547200000u); }

static inline uint32_t moon_of(uint32_t edition, uint32_t day) {
    uint32_t at = true_moon(day);
    if (edition != 2) return at;
    uint32_t x = past(280800, sun(day));
    return with(at, x, equation(x, 32400, 538526880000u) / 27);
}

/* A row at every 15 degrees, in tenths of a degree. */
static const uint32_t SIGHRA[5][13] = {
    {0, 58, 117, 174, 228, 279, 325, 365, 393, 400, 368, 249, 0}, {0, 41, 81, 117, 150, 178, 199, 212, 212, 195, 155, 89, 0},
    {0, 25, 47, 68, 85, 98, 106, 108, 102, 89, 66, 36, 0},        {0, 63, 126, 186, 246, 302, 354, 402, 440, 461, 443, 326, 0},
    {0, 15, 28, 39, 48, 54, 57, 57, 53, 45, 33, 18, 0}};
static const uint32_t MANDA[5][7] = {
    {0, 29, 57, 85, 109, 124, 130}, {0, 12, 21, 28, 33, 35, 36}, {0, 14, 27, 39, 48, 55, 57}, {0, 6, 11, 13, 14, 15, 15}, {0, 19, 40, 60, 77, 89, 93}};
static const uint32_t APOGEES[5] = {432000, 756000, 648000, 324000, 864000};

static inline uint32_t on_line(const uint32_t *row, uint32_t arc) {
    uint32_t at = arc / 54000, off = arc % 54000;
    return off ? (row[at] * (54000 - off) + row[at + 1] * off) / 150 : row[at] * 360;
}

static inline uint32_t folded(uint32_t x) { return x <= 648000 ? x : CIRCLE - x; }
static inline uint32_t quarter(uint32_t x) { return folded(x) <= 324000 ? folded(x) : 648000 - folded(x); }

static inline uint32_t planet(int p, uint32_t at, uint32_t first) {
    uint32_t half = with(at, first, on_line(SIGHRA[p], folded(first)) / 2);
    uint32_t x = past(APOGEES[p], half), manda = on_line(MANDA[p], quarter(x));
    uint32_t second = x <= 648000 ? past(first, manda) : (first + manda) % CIRCLE;
    return with(with(at, x, manda), second, on_line(SIGHRA[p], folded(second)));
}

static inline uint32_t outer(int p, uint32_t day, uint32_t own) { return planet(p, own, past(sun(day), own)); }

uint32_t plain_true_mars(uint32_t day) { return day > LAST ? 0 : outer(0, day, mean(day, 1105680, 199920, 2616600, 1387)); }
uint32_t plain_true_mercury(uint32_t day) { return day > LAST ? 0 : planet(1, sun(day), mean(day, 970380, 444420, 1487490, 133)); }
uint32_t plain_true_jupiter(uint32_t day) { return day > LAST ? 0 : outer(2, day, mean(day, 764160, 94680, 2094, 7)); }
uint32_t plain_true_venus(uint32_t day) { return day > LAST ? 0 : planet(3, sun(day), mean(day, 828540, 158520, 401760, 181)); }
uint32_t plain_true_saturn(uint32_t day) { return day > LAST ? 0 : outer(4, day, mean(day, 1027260, 812520, 1565, 13)); }
uint32_t plain_mean_sun(uint32_t day) { return day > LAST ? 0 : sun(day); }
uint32_t plain_mean_moon(uint32_t day) { return day > LAST ? 0 : moon(day); }
uint32_t plain_moon_node(uint32_t day) { return day > LAST ? 0 : mean(day, 99480, 766200, 73861124, 57); }
uint32_t plain_mean_sun_thirds(uint32_t day) { return day > LAST ? 0 : thirds(day, 124186, 35); }
uint32_t plain_moon_node_thirds(uint32_t day) { return day > LAST ? 0 : thirds(day, 73861124, 57); }
uint32_t plain_mean_mars(uint32_t day) { return day > LAST ? 0 : mean(day, 1105680, 199920, 2616600, 1387); }
uint32_t plain_cycle(uint32_t day) { return day > LAST ? 0 : day / 4016; }
uint32_t plain_within(uint32_t day) { return day > LAST ? 0 : day % 4016; }
uint32_t plain_weekday(uint32_t day) { return day > LAST ? 0 : day % 7; }
uint32_t plain_true_sun(uint32_t day) { return day > LAST ? 0 : true_sun(day); }
uint32_t plain_true_moon(uint32_t day) { return day > LAST ? 0 : true_moon(day); }
uint32_t plain_tithi(uint32_t day) { return day > LAST ? 0 : past(true_moon(day), true_sun(day)) / 43200; }
uint32_t plain_nakshatra(uint32_t day) { return day > LAST ? 0 : true_moon(day) / 48000; }
uint32_t plain_yoga(uint32_t day) { return day > LAST ? 0 : (true_sun(day) + true_moon(day)) % CIRCLE / 48000; }
static inline uint32_t karana_of(uint32_t h) { return h == 0 ? 11 : h <= 56 ? (h - 1) % 7 + 1 : h - 49; }
uint32_t plain_karana(uint32_t day) { return day > LAST ? 0 : karana_of(past(true_moon(day), true_sun(day)) / 21600); }

static inline uint32_t body_mean(uint32_t body, uint32_t day) {
    switch (body) {
    case 0: return sun(day);
    case 1: return moon(day);
    case 2: return apogee(day);
    case 3: return mean(day, 99480, 766200, 73861124, 57);
    case 4: return mean(day, 1105680, 199920, 2616600, 1387);
    case 5: return mean(day, 970380, 444420, 1487490, 133);
    case 6: return mean(day, 764160, 94680, 2094, 7);
    case 7: return mean(day, 828540, 158520, 401760, 181);
    default: return mean(day, 1027260, 812520, 1565, 13);
    }
}

static inline uint32_t body_true(uint32_t body, uint32_t day) {
    switch (body) {
    case 0: return true_sun(day);
    case 1: return true_moon(day);
    case 4: return outer(0, day, body_mean(4, day));
    case 5: return planet(1, sun(day), body_mean(5, day));
    case 6: return outer(2, day, body_mean(6, day));
    case 7: return planet(3, sun(day), body_mean(7, day));
    case 8: return outer(4, day, body_mean(8, day));
    default: return body_mean(body, day);
    }
}

static inline double rate(uint32_t at, uint32_t next) {
    int32_t way = (int32_t)next - (int32_t)at;
    if (way >= 648000) way -= 1296000;
    if (way < -648000) way += 1296000;
    return way / 3600.0;
}

double plain_place_angle(uint32_t day, uint32_t body) { return day > LAST || body > 8 ? 0.0 : body_mean(body, day) / 3600.0; }
double plain_follow_rate(uint32_t day, uint32_t body) { return day >= LAST || body > 8 ? 0.0 : rate(body_mean(body, day), body_mean(body, day + 1)); }
double plain_true_place_angle(uint32_t day, uint32_t body) { return day > LAST || body > 8 ? 0.0 : body_true(body, day) / 3600.0; }
double plain_true_follow_rate(uint32_t day, uint32_t body) { return day >= LAST || body > 8 ? 0.0 : rate(body_true(body, day), body_true(body, day + 1)); }

uint32_t plain_fill_records(uint32_t edition, plain_record *records, uint64_t len) {
    if (edition != 1 && edition != 2) return 14;
    for (uint64_t i = 0; i < len; i++)
        if (records[i].day > LAST) return 2;
    for (uint64_t i = 0; i < len; i++) {
        plain_record *r = records + i;
        uint32_t day = r->day;
        r->weekday = day % 7;
        r->longitudes[0] = sun(day);
        r->longitudes[1] = moon(day);
        r->longitudes[2] = apogee(day);
        r->longitudes[3] = mean(day, 99480, 766200, 73861124, 57);
        r->longitudes[4] = mean(day, 1105680, 199920, 2616600, 1387);
        r->longitudes[5] = mean(day, 970380, 444420, 1487490, 133);
        r->longitudes[6] = mean(day, 764160, 94680, 2094, 7);
        r->longitudes[7] = mean(day, 828540, 158520, 401760, 181);
        r->longitudes[8] = mean(day, 1027260, 812520, 1565, 13);
        r->sun = true_sun(day);
        r->moon = moon_of(edition, day);
        r->tithi = past(r->moon, r->sun) / 43200;
        r->nakshatra = r->moon / 48000;
        r->yoga = (r->sun + r->moon) % CIRCLE / 48000;
        r->karana = karana_of(past(r->moon, r->sun) / 21600);
    }
    return 0;
}

void plain_limbs(uint32_t edition, uint32_t day, uint32_t *limbs) {
    uint32_t s = true_sun(day), m = moon_of(edition, day);
    limbs[0] = past(m, s) / 43200;
    limbs[1] = m / 48000;
    limbs[2] = (s + m) % CIRCLE / 48000;
    limbs[3] = karana_of(past(m, s) / 21600);
}

static inline int has(uint32_t set, uint32_t number) { return set >> number & 1; }

static inline int in(const plain_arcs *asked, uint32_t at) {
    for (uint32_t i = 0; i < asked->arcs; i++)
        if (past(at, asked->start[i]) < asked->width[i]) return 1;
    return 0;
}

/* One condition after the other, what is cheap to reckon first; a light is reckoned once for all that ask for it. */
static inline int meets(const plain_query *q, uint32_t day) {
    if (q->weekdays && !has(q->weekdays, day % 7)) return 0;
    if (q->mean_sun.arcs && !in(&q->mean_sun, sun(day))) return 0;
    int both = q->tithis || q->yogas || q->karanas;
    uint32_t s = 0, m = 0;
    if (both || q->sun.arcs) s = true_sun(day);
    if (q->sun.arcs && !in(&q->sun, s)) return 0;
    if (both || q->nakshatras || q->moon.arcs) m = moon_of(q->edition, day);
    if (q->moon.arcs && !in(&q->moon, m)) return 0;
    if (q->nakshatras && !has(q->nakshatras, m / 48000)) return 0;
    if (q->tithis && !has(q->tithis, past(m, s) / 43200)) return 0;
    if (q->yogas && !has(q->yogas, (s + m) % CIRCLE / 48000)) return 0;
    if (q->karanas && !has(q->karanas, karana_of(past(m, s) / 21600))) return 0;
    if (q->planets[1].arcs && !in(q->planets + 1, plain_true_mercury(day))) return 0;
    if (q->planets[3].arcs && !in(q->planets + 3, plain_true_venus(day))) return 0;
    if (q->planets[0].arcs && !in(q->planets, plain_true_mars(day))) return 0;
    if (q->planets[2].arcs && !in(q->planets + 2, plain_true_jupiter(day))) return 0;
    if (q->planets[4].arcs && !in(q->planets + 4, plain_true_saturn(day))) return 0;
    return 1;
}

uint32_t plain_find(const plain_query *query, uint32_t *list) {
    uint32_t count = 0;
    for (uint32_t day = 0; day <= LAST; day++)
        if (meets(query, day)) list[count++] = day;
    return count;
}

static inline uint32_t saka_day(uint32_t year, uint32_t months, uint32_t tithis, uint32_t weekday, uint32_t pending) {
    if (months > 11 || tithis > 29 || weekday > 6 || year < 1442 || year > 2541) return 0;
    uint32_t cycle = (year - 1442) / 11, mean = 12 * ((year - 1442) % 11) + months, extra = (mean + 2 * cycle + 10) / 33;
    if (extra < pending) return 0;
    uint32_t elapsed = 30 * (mean + extra - pending) + tithis + cycle / 6;
    uint32_t day = 4016 * cycle + elapsed - elapsed / 64;
    uint32_t ahead = (weekday + 7 - day % 7) % 7;
    if (ahead == 1) day++;
    else if (ahead == 6) day--;
    else if (ahead) return 0;
    return day > LAST ? 0 : day; /* day -1 wraps and is above the last */
}
uint32_t plain_saka_day(uint32_t year, uint32_t months, uint32_t tithis, uint32_t weekday) { return saka_day(year, months, tithis, weekday, 0); }
uint32_t plain_saka_pending_day(uint32_t year, uint32_t months, uint32_t tithis, uint32_t weekday, uint32_t pending) {
    return saka_day(year, months, tithis, weekday, pending != 0);
}

static uint32_t refusal(uint32_t first, uint32_t last, uint32_t start, uint32_t width, uint32_t weekday) {
    if (first > LAST || last > LAST) return 2;
    if (last < first) return 5;
    if (start >= CIRCLE || width < 1 || width > CIRCLE || weekday > 6) return 6;
    return 0;
}

static inline void put(uint8_t *list, size_t at, uint32_t day) {
    list[at] = (uint8_t)day;
    list[at + 1] = (uint8_t)(day >> 8);
    list[at + 2] = (uint8_t)(day >> 16);
    list[at + 3] = (uint8_t)(day >> 24);
}

plain_found plain_search(uint32_t first, uint32_t last, uint32_t start, uint32_t width, uint32_t weekday, uint8_t *list, size_t len) {
    plain_found found = {refusal(first, last, start, width, weekday), 0, 0};
    if (found.refusal) return found;
    size_t at = 0;
    for (uint32_t day = first; day <= last;) {
        found.looked++;
        uint32_t off = past(sun(day), start);
        if (off < width) {
            if (day % 7 == weekday) {
                if (at + 4 > len) {
                    found.refusal = 7;
                    return found;
                }
                put(list, at, day);
                at += 4;
                found.length++;
            }
            day++;
        } else {
            day += (CIRCLE - off + 3548) / 3549;
        }
    }
    return found;
}

plain_found plain_every_day(uint32_t first, uint32_t last, uint32_t start, uint32_t width, uint32_t weekday, uint8_t *list, size_t len) {
    plain_found found = {refusal(first, last, start, width, weekday), 0, 0};
    if (found.refusal) return found;
    size_t at = 0;
    for (uint32_t day = first; day <= last; day++) {
        found.looked++;
        if (past(sun(day), start) < width && day % 7 == weekday) {
            if (at + 4 > len) {
                found.refusal = 7;
                return found;
            }
            put(list, at, day);
            at += 4;
            found.length++;
        }
    }
    return found;
}

/* By a Sun's place, which is laid open in the loop. */
static inline __attribute__((always_inline)) plain_found sign_entries(uint32_t (*place)(uint32_t), uint32_t first, uint32_t last, uint8_t *list, size_t len) {
    plain_found found = {first > LAST || last > LAST ? 2 : last < first ? 5 : 0, 0, 0};
    if (found.refusal) return found;
    size_t at = 0;
    uint32_t before = place(first) / 108000;
    for (uint32_t day = first + 1; day <= last; day++) {
        uint32_t sign = place(day) / 108000;
        if (sign != before) {
            if (at + 4 > len) {
                found.refusal = 7;
                return found;
            }
            put(list, at, day);
            at += 4;
            found.length++;
        }
        before = sign;
    }
    return found;
}

plain_found plain_sign_entries(uint32_t first, uint32_t last, uint8_t *list, size_t len) { return sign_entries(sun, first, last, list, len); }
plain_found plain_true_sign_entries(uint32_t first, uint32_t last, uint8_t *list, size_t len) { return sign_entries(true_sun, first, last, list, len); }

static inline uint32_t tithi_of(uint32_t day) { return past(true_moon(day), true_sun(day)) / 43200; }

/* The month turns of so many days behind the covered ones; where the list may be too short they are counted first. With
 * no list they are only counted. */
static inline uint32_t turns_of(uint32_t covered, uint32_t days, uint8_t *list) {
    uint32_t before = tithi_of(covered - 1), count = 0;
    for (uint32_t day = covered; day < covered + days; day++) {
        uint32_t tithi = tithi_of(day);
        if (tithi < before) {
            if (list) put(list, 4 * (size_t)count, day);
            count++;
        }
        before = tithi;
    }
    return count;
}

uint32_t plain_months_extend(uint32_t turns, uint32_t covered, uint32_t days, uint8_t *list, size_t len) {
    if (covered < 1 || covered > LAST + 1 || days > LAST + 1 - covered) return 2;
    if (len / 4 < turns) return 7;
    if (len / 4 - turns < days && turns_of(covered, days, NULL) > len / 4 - turns) return 7;
    turns_of(covered, days, list + 4 * (size_t)turns);
    return 0;
}

uint32_t plain_month_number(uint32_t turns, uint32_t covered, uint32_t day, const uint8_t *list, size_t len) {
    if (covered < 1 || covered > LAST + 1 || day >= covered) return 0;
    if (len / 4 < turns) return turns;
    for (uint32_t number = turns; number > 0; number--) {
        const uint8_t *entry = list + 4 * (size_t)(number - 1);
        if ((entry[0] | (uint32_t)entry[1] << 8 | (uint32_t)entry[2] << 16 | (uint32_t)entry[3] << 24) <= day) return number;
    }
    return 0;
}

/* How far ahead of an older motion the mean place is, in parts of a second: K is in both. */
typedef struct {
    uint64_t d, p, q, circles, days;
} older;

static inline uint64_t ahead_on(older m, uint32_t day) {
    uint64_t seconds = CIRCLE * m.q, circle = seconds * m.days;
    uint64_t mean = (day / 4016 * (CIRCLE - m.d) * m.q + day % 4016 * m.p) % seconds * m.days;
    uint64_t other = day * m.circles % m.days * seconds;
    return (mean + circle - other) % circle;
}

static inline plain_farthest farthest(older m, uint32_t first, uint32_t last) {
    uint64_t circle = CIRCLE * m.q * m.days, gain = ahead_on(m, 1), ahead = ahead_on(m, first);
    plain_farthest found = {ahead <= circle - ahead ? ahead : circle - ahead, first};
    for (uint32_t day = first + 1; day <= last; day++) {
        if (day % 4016 == 0) {
            ahead = ahead_on(m, day);
        } else {
            ahead += gain;
            if (ahead >= circle) ahead -= circle;
        }
        uint64_t distance = ahead <= circle - ahead ? ahead : circle - ahead;
        if (distance > found.numerator) found = (plain_farthest){distance, day};
    }
    return found;
}

plain_farthest plain_drift(uint32_t first, uint32_t last, uint32_t body) {
    if (first > LAST || last > LAST || last < first) return (plain_farthest){0, 0};
    plain_farthest three[] = {
        farthest((older){6551, 124186, 35, 4320000, 1577916450}, first, last),
        farthest((older){13571, 5644749, 119, 57753300, 1577916450}, first, last),
        farthest((older){981900, 2806, 7, 488203, 1577917828}, first, last),
    };
    return body < 3 ? three[body] : (plain_farthest){0, 0};
}

static inline uint64_t refused(uint64_t refusal, uint64_t length) { return refusal << 32 | length; }

static inline int leap(uint32_t y) { return y % 4 == 0 && (y % 100 != 0 || y % 400 == 0); }

/* The days from 1 March of year 0 to a date's, by the Gregorian rule; year 0 counts as 400. */
static inline uint32_t serial(uint32_t y, uint32_t m, uint32_t d) {
    uint32_t u = y + (m < 3 ? 399 : 400), p = (m + 9) % 12;
    return 365 * u + u / 4 - u / 100 + u / 400 + (153 * p + 2) / 5 + d - 1;
}

#define DAY_0 701293u
#define JULIAN_DAY_0 701298u /* by the Julian rule */
#define GREGORIAN 22845u     /* 15 October 1582 */

static inline plain_date of_march_year(uint32_t year, uint32_t n) {
    uint32_t p = (5 * n + 2) / 153;
    return (plain_date){year - 400 + (p >= 10), p < 10 ? p + 3 : p - 9, n - (153 * p + 2) / 5 + 1};
}

static inline plain_date gregorian(uint32_t day) {
    uint32_t s = day + DAY_0, c = (4 * s + 3) / 146097, w = s - (36524 * c + c / 4), v = (4 * w + 3) / 1461;
    return of_march_year(100 * c + v, w - (365 * v + v / 4));
}

static inline plain_date julian(uint32_t day) {
    uint32_t s = day + JULIAN_DAY_0, v = (4 * s + 3) / 1461;
    return of_march_year(v, s - (365 * v + v / 4));
}

plain_date plain_civil_date(uint32_t day) { return day < GREGORIAN ? julian(day) : gregorian(day); }
plain_date plain_iso_date(uint32_t day) { return gregorian(day); }

/* The day of a line of a date, or the refusal's number with the top bit. */
static inline uint32_t date_line(const uint8_t *line, size_t len) {
    static const uint8_t LENGTHS[] = {31, 28, 31, 30, 31, 30, 31, 31, 30, 31, 30, 31};
    static const uint8_t PLACES[] = {0, 1, 2, 3, 5, 6, 8, 9};
    if (len != 11 || line[4] != '-' || line[7] != '-' || line[10] != '\n') return 1u << 31 | 15;
    uint32_t n = 0;
    for (int i = 0; i < 8; i++) {
        uint32_t digit = line[PLACES[i]] - '0';
        if (digit > 9) return 1u << 31 | 15;
        n = 10 * n + digit;
    }
    uint32_t y = n / 10000, m = n / 100 % 100, d = n % 100;
    if (m < 1 || m > 12 || d < 1 || d > (uint32_t)LENGTHS[m - 1] + (m == 2 && leap(y))) return 1u << 31 | 1;
    uint32_t day = serial(y, m, d) - DAY_0;
    return day > LAST ? 1u << 31 | 2 : day;
}

static inline size_t line_end(const uint8_t *text, size_t len, size_t at) {
    while (at < len)
        if (text[at++] == '\n') break;
    return at;
}

uint64_t plain_dates_to_list(const uint8_t *text, size_t text_len, uint8_t *list, size_t list_len) {
    uint64_t lines = 0;
    for (size_t at = 0, end; at < text_len; at = end, lines++) {
        end = line_end(text, text_len, at);
        uint32_t day = date_line(text + at, end - at);
        if (day >> 31) return refused(day & 0xff, 0);
    }
    if (list_len / 4 < lines) return refused(7, lines);
    size_t to = 0;
    for (size_t at = 0, end; at < text_len; at = end, to += 4) {
        end = line_end(text, text_len, at);
        put(list, to, date_line(text + at, end - at));
    }
    return lines;
}

static inline uint32_t entry(const uint8_t *list, size_t at) {
    return list[at] | (uint32_t)list[at + 1] << 8 | (uint32_t)list[at + 2] << 16 | (uint32_t)list[at + 3] << 24;
}

uint64_t plain_list_to_dates(const uint8_t *list, size_t list_len, uint8_t *text, size_t text_len) {
    size_t entries = list_len / 4;
    for (size_t i = 0; i < entries; i++)
        if (entry(list, 4 * i) > LAST) return refused(2, 0);
    if (text_len < 11 * entries) return refused(7, 11 * entries);
    for (size_t i = 0; i < entries; i++) {
        plain_date date = gregorian(entry(list, 4 * i));
        uint32_t y = date.year, m = date.month, d = date.day;
        uint8_t *line = text + 11 * i;
        line[0] = (uint8_t)('0' + y / 1000);
        line[1] = (uint8_t)('0' + y / 100 % 10);
        line[2] = (uint8_t)('0' + y / 10 % 10);
        line[3] = (uint8_t)('0' + y % 10);
        line[4] = line[7] = '-';
        line[5] = (uint8_t)('0' + m / 10);
        line[6] = (uint8_t)('0' + m % 10);
        line[8] = (uint8_t)('0' + d / 10);
        line[9] = (uint8_t)('0' + d % 10);
        line[10] = '\n';
    }
    return 11 * entries;
}

static inline void put32(uint8_t *at, uint32_t n) {
    at[0] = (uint8_t)n;
    at[1] = (uint8_t)(n >> 8);
    at[2] = (uint8_t)(n >> 16);
    at[3] = (uint8_t)(n >> 24);
}

static inline uint32_t get32(const uint8_t *at) { return at[0] | (uint32_t)at[1] << 8 | (uint32_t)at[2] << 16 | (uint32_t)at[3] << 24; }

/* The thirteen numbers of a day's place; the last is the four limbs. */
static inline void place_of(uint32_t day, uint32_t *to) {
    to[0] = day;
    for (uint32_t body = 0; body < 9; body++) to[1 + body] = body_mean(body, day);
    uint32_t s = true_sun(day), m = true_moon(day);
    to[10] = s;
    to[11] = m;
    to[12] = past(m, s) / 43200 | (m / 48000) << 8 | ((s + m) % CIRCLE / 48000) << 16 | karana_of(past(m, s) / 21600) << 24;
}

static inline uint32_t block_sum(const uint8_t *block) {
    uint32_t sum = 0;
    for (uint32_t i = 0; i < 508; i++) sum += block[i] * (i + 1);
    return sum;
}

uint32_t plain_almanac_write(uint32_t first, uint32_t last, uint8_t *file, uint64_t file_len) {
    if (first > LAST || last > LAST) return 2;
    if (last < first) return 5;
    uint32_t count = last - first + 1, blocks = (count + 8) / 9;
    if (file_len < 512ull * blocks) return 7;
    for (uint32_t index = 0; index < blocks; index++) {
        uint8_t *block = file + 512ull * index, *at = block + 8;
        put32(block, index);
        put32(block + 4, count);
        for (uint32_t j = 9 * index; j < count && j < 9 * index + 9; j++) {
            uint32_t place[13];
            place_of(first + j, place);
            for (int i = 0; i < 13; i++, at += 4) put32(at, place[i]);
        }
        while (at < block + 508) *at++ = 0;
        put32(block + 508, block_sum(block));
    }
    return 0;
}

uint32_t plain_almanac_read(const uint8_t *file, uint64_t file_len, uint8_t *list, uint64_t list_len) {
    if (file_len < 512) return 9;
    uint32_t count = get32(file + 4), first = get32(file + 8);
    if (file_len != 512 * (((uint64_t)count + 8) / 9)) return 9;
    uint64_t day = first;
    for (uint32_t index = 0; index < file_len / 512; index++) {
        const uint8_t *block = file + 512ull * index, *at = block + 8;
        if (get32(block + 508) != block_sum(block)) return 10;
        if (get32(block) != index || get32(block + 4) != count) return 11;
        uint32_t days = count - 9 * index < 9 ? count - 9 * index : 9;
        for (const uint8_t *zero = at + 52 * days; zero < block + 508; zero++)
            if (*zero) return 12;
        for (uint32_t j = 0; j < days; j++, day++) {
            uint32_t place[13];
            if (day > LAST) return 13;
            place_of((uint32_t)day, place);
            for (int i = 0; i < 13; i++, at += 4)
                if (get32(at) != place[i]) return 13;
        }
    }
    if (list_len / 4 < count) return 7;
    for (uint32_t i = 0; i < count; i++) put32(list + 4ull * i, first + i);
    return 0;
}
