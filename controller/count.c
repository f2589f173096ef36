/* Makes one row's calls of the Cortex-M4's archive, TIMES times, as a program with nothing else in it: controller/count
 * counts its instructions under qemu. Built with ROW, the name of a function below, and TIMES. */
#include "grahalaghava.h"

enum { DAYS = 401600, TRIED = 100, BODIES = 9, SIGN_ENTRIES = 13194 };

static uint8_t list[4 * SIGN_ENTRIES];
static volatile uint32_t sink;
static volatile double degrees;

void nothing(uint32_t day)
{
    sink = day;
}

void mean_places(uint32_t day)
{
    sink = graha_mean_sun(day) + graha_mean_moon(day) + graha_moon_apogee(day) + graha_moon_node(day) + graha_mean_mars(day) +
           graha_mercury_anomaly(day) + graha_mean_jupiter(day) + graha_venus_anomaly(day) + graha_mean_saturn(day);
}

void arms(uint32_t day)
{
    sink = graha_true_sun(day) + graha_true_moon(day) + graha_moon_node(day) + graha_true_mars(day) + graha_true_mercury(day) +
           graha_true_jupiter(day) + graha_true_venus(day) + graha_true_saturn(day) + graha_moon_apogee(day);
}

void true_mars(uint32_t day)
{
    sink = graha_true_mars(day);
}

void sheet(uint32_t day)
{
    sink = graha_day_cycle(day) + graha_day_within(day) + graha_day_weekday(day) + graha_true_sun(day) + graha_true_moon(day) +
           graha_tithi(day) + graha_nakshatra(day) + graha_yoga(day) + graha_karana(day);
}

void date(uint32_t day)
{
    sink = graha_day_year(day) + graha_day_month(day) + graha_day_of_month(day);
}

void placed(uint32_t day)
{
    for (uint32_t body = 0; body < BODIES; body++) {
        sink = graha_place_order(day, body);
        degrees = graha_place_angle(day, body);
    }
}

void followed(uint32_t day)
{
    for (uint32_t body = 0; body < BODIES; body++) {
        sink = graha_follow_order(day, body);
        degrees = graha_follow_rate(day, body);
    }
}

void true_placed(uint32_t day)
{
    for (uint32_t body = 0; body < BODIES; body++) {
        sink = graha_true_place_order(day, body);
        degrees = graha_true_place_angle(day, body);
    }
}

void true_followed(uint32_t day)
{
    for (uint32_t body = 0; body < BODIES; body++) {
        sink = graha_true_follow_order(day, body);
        degrees = graha_true_follow_rate(day, body);
    }
}

void carried_out(uint32_t day)
{
    sink = day;
    degrees = graha_carry_out_angle(1.5, 0.5, GRAHA_RUN, 0.25);
    degrees = graha_carry_out_rate(1.5, 0.5, GRAHA_RUN, 0.25);
}

void sign_year(uint32_t day)
{
    sink = graha_sign_entries(day, day + 364, list, 4 * 13);
}

void sign_all(uint32_t day)
{
    sink = graha_sign_entries(0, DAYS - 1, list, sizeof list) + day;
}

void true_sign_year(uint32_t day)
{
    sink = graha_true_sign_entries(day, day + 364, list, 4 * 13);
}

void true_sign_all(uint32_t day)
{
    sink = graha_true_sign_entries(0, DAYS - 1, list, sizeof list) + day;
}

void sparse_fits(uint32_t day)
{
    sink = graha_search(0, DAYS - 1, 0, 3600, 0, list, 4 * 159) + day;
}

void sparse_refused(uint32_t day)
{
    sink = graha_search(0, DAYS - 1, 0, 3600, 0, list, 4 * 158) + day;
}

void year(uint32_t day)
{
    sink = graha_search(day, day + 364, 0, 3600, 0, list, 4 * 4) + day;
}

/* The runtime's memory functions, as simple as can be. */
void __aeabi_memcpy(void *to, const void *from, size_t count)
{
    for (size_t at = 0; at < count; at++)
        ((volatile uint8_t *)to)[at] = ((const uint8_t *)from)[at];
}

void __aeabi_memclr4(void *to, size_t count)
{
    for (size_t at = 0; at < count / 4; at++)
        ((volatile uint32_t *)to)[at] = 0;
}

/* Days from all over the table, or the first of them alone. */
static void run(void)
{
    for (uint32_t tried = 0; tried < TIMES; tried++)
        ROW(tried * (DAYS / TRIED));
}

/* Linux's call 1 ends the program. */
__attribute__((noreturn)) void _start(void)
{
    run();
    register uint32_t number __asm__("r7") = 1;
    register uint32_t status __asm__("r0") = 0;
    for (;;)
        __asm__ volatile("svc 0" : : "r"(number), "r"(status));
}
