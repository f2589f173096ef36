/* For the bench: what a controller does with the archive, with no C library and no memory but its own. It sets the nine
 * arms of a day, and looks for the days of a year on which the Sun stands in a degree. controller/build compiles it for
 * every controller that there is an archive for. */
#include "grahalaghava.h"

/* A list's length has 64 bits in the call, also where size_t has 32. */
_Static_assert(_Generic(&graha_search,
                        uint32_t (*)(uint32_t, uint32_t, uint32_t, uint32_t, uint32_t, uint8_t *, uint64_t): 1,
                        default: 0),
               "the length of a list has 64 bits");

enum { ARMS = 9, ENTRIES = 4 };

/* Whole seconds of arc for the motors, 0 to 1295999. */
uint32_t arms[ARMS];

/* The list of the search: four bytes a day. */
uint8_t list[4 * ENTRIES];

void set_arms(uint32_t day)
{
    static uint32_t (*const PLACES[ARMS])(uint32_t day) = {
        graha_true_sun,     graha_true_moon,  graha_moon_node,   graha_true_mars,   graha_true_mercury,
        graha_true_jupiter, graha_true_venus, graha_true_saturn, graha_moon_apogee,
    };
    for (int arm = 0; arm < ARMS; arm++)
        arms[arm] = PLACES[arm](day);
}

/* The Mondays of the year from a day on with the Sun in the first degree: GRAHA_ACCEPTED, and the list has them; or
 * another result, and it has not. */
uint32_t find_mondays(uint32_t day)
{
    return graha_search(day, day + 364, 0, 3600, 0, list, sizeof list);
}
