/* The commands of pierheather and their help, made by command/make_help.py of command/commands.txt. */
#ifndef PIERHEATHER_HELP_H
#define PIERHEATHER_HELP_H

#include <stddef.h>
#include <stdint.h>

/* The proved functions. Each writes by itself and hands back the exit status: of a text, of a text and how to print
 * where it does not say so itself, or of what it reads on standard input. */
typedef uint32_t on_text(const uint8_t *text, size_t len);
typedef uint32_t on_text_printed(const uint8_t *text, size_t len, uint32_t print);
typedef uint32_t on_input(void);
extern on_text_printed pierheather_find;
extern on_text_printed pierheather_why;
extern on_text pierheather_day;
extern on_text pierheather_saka;
extern on_text pierheather_month;
extern on_text pierheather_signs;
extern on_text pierheather_plate;
extern on_text pierheather_drift;
extern on_text pierheather_lunar_month;
extern on_text pierheather_dates_to_days;
extern on_text pierheather_days_to_dates;
extern on_text pierheather_almanac_write;
extern on_input pierheather_almanac_read;

/* What a form's operands are: a file, a day and a file, the words of a line, a file of lines, a file for standard
 * input. */
enum { PAGE, DAY_PAGE, WORDS, LINES, STREAM };

/* The options that a form takes. */
enum { WITH_NAMES = 1, WITH_CSV = 2, WITH_DAYS = 4, WITH_EDITION = 8, WITH_TRUE = 16 };

struct form {
    const char *name, *second; /* the command, and the word behind it or NULL */
    const char *usage, *usages; /* its own, and those of all forms of the command */
    const char *help, *waits;
    const char *edition; /* what stands in front of an edition's number */
    int kind, options;
    on_text *of_text;
    on_text_printed *printed;
    on_input *of_input;
};

static const char overview[] =
    "usage: pierheather COMMAND ..\n"
    "\n"
    "  find         list every day that fits a torn page\n"
    "  why          say why a day is not in a page's list, or that it fits\n"
    "  day          a day at a glance: its dates, its panchanga, and all places\n"
    "  saka         the days of a Saka lunar date by both rules, and which of them fits\n"
    "  month        thirty days from a day on, or as many as are asked for\n"
    "  signs        the days on which the Sun enters a sign\n"
    "  plate        a day's mean longitudes for the engravers, to the third\n"
    "  drift        how far Sun, Moon and apogee come from the older books\n"
    "  lunar-month  the latest new-moon day at or before a day\n"
    "  iso          ISO dates to day numbers and back, a line each\n"
    "  almanac      write an almanac file, or check one and print its days\n"
    "  help         help [COMMAND], or COMMAND --help or -h; --version says which it is\n"
    "\n"
    "A file that is missing, or -, is standard input. Exit status:\n"
    "  0  done\n"
    "  1  find found no day, why says that the day does not fit, saka that neither\n"
    "     does\n"
    "  2  wrong usage; a line on standard error has the right one\n"
    "  3  refused: the refusal's number is on standard output and the reason on\n"
    "     standard error\n"
    "  4  not everything could be read or written, which is said on standard error\n";

static const char help_find[] =
    "usage: pierheather find [--names | --csv] [--edition N] [PAGE]\n"
    "\n"
    "List every day that fits a torn page.\n"
    "\n"
    "PAGE has what is left of an almanac page, a line for each thing that can be\n"
    "read; docs/find.md has eight of them. Every day from 19 March 1520 to 13\n"
    "October 2619 that it can be is listed. A page that asks for nothing is\n"
    "refused: `all` on a line of its own lists every day.\n"
    "\n"
    "    $ pierheather find examples/torn-page.txt\n"
    "\n"
    "  --names       print names, in columns; the default on a terminal\n"
    "  --csv         print a comma-separated table\n"
    "  --edition N   reckon the Moon by edition 1 or 2\n";

static const char help_why[] =
    "usage: pierheather why [--names] [--edition N] DAY [PAGE]\n"
    "\n"
    "Say why a day is not in a page's list, or that it fits.\n"
    "\n"
    "DAY is a day's number or a civil date, as 1612-5-14. The page's lines are\n"
    "counted from the day's, which is the first.\n"
    "\n"
    "    $ pierheather why 1612-5-15 examples/torn-page.txt\n"
    "\n"
    "  --names       print names, in columns; the default on a terminal\n"
    "  --edition N   reckon the Moon by edition 1 or 2\n";

static const char help_day[] =
    "usage: pierheather day [--edition N] DAY\n"
    "\n"
    "A day at a glance: its dates, its panchanga, and all places.\n"
    "\n"
    "DAY is a day's number, a civil date as 1612-5-14, an ISO date with the word\n"
    "iso in front, or a Saka date with the word saka in front: a year, a month, a\n"
    "tithi and a weekday.\n"
    "\n"
    "    $ pierheather day 1612-5-14\n"
    "\n"
    "    $ pierheather day saka 1534 vaishakha purnima monday\n"
    "\n"
    "  --edition N   reckon the Moon by edition 1 or 2\n";

static const char help_saka[] =
    "usage: pierheather saka YEAR MONTH TITHI WEEKDAY\n"
    "\n"
    "The days of a Saka lunar date by both rules, and which of them fits.\n"
    "\n"
    "YEAR is the elapsed year; MONTH a number, 0 to 11 elapsed, or a name; TITHI a\n"
    "number, 0 to 29 elapsed, a name, or shukla or krishna with 1 to 15; WEEKDAY a\n"
    "number from 0, Monday, or a name.\n"
    "\n"
    "    $ pierheather saka 1522 0 2 friday\n";

static const char help_month[] =
    "usage: pierheather month [--names | --csv] [--days N] [--edition N] DAY\n"
    "\n"
    "Thirty days from a day on, or as many as are asked for.\n"
    "\n"
    "DAY is the first day, by its number or its civil date.\n"
    "\n"
    "    $ pierheather month 1612-5-14\n"
    "\n"
    "  --names       print names, in columns; the default on a terminal\n"
    "  --csv         print a comma-separated table\n"
    "  --days N      how many days, 1 to 366\n"
    "  --edition N   reckon the Moon by edition 1 or 2\n";

static const char help_signs[] =
    "usage: pierheather signs [--true] FIRST LAST\n"
    "\n"
    "The days on which the Sun enters a sign.\n"
    "\n"
    "FIRST and LAST are days by number or civil date. It is the mean Sun, with\n"
    "--true the true one.\n"
    "\n"
    "    $ pierheather signs --true 1612-1-1 1612-12-31\n"
    "\n"
    "  --true        the true Sun's entries, which a calendar prints\n";

static const char help_plate[] =
    "usage: pierheather plate DAY\n"
    "\n"
    "A day's mean longitudes for the engravers, to the third.\n"
    "\n"
    "DAY is a day's number or a civil date.\n"
    "\n"
    "    $ pierheather plate 33649\n";

static const char help_drift[] =
    "usage: pierheather drift FIRST LAST\n"
    "\n"
    "How far Sun, Moon and apogee come from the older books.\n"
    "\n"
    "FIRST and LAST are the span's days, by number or civil date. It is the mean\n"
    "Sun, the mean Moon and the Moon's apogee.\n"
    "\n"
    "    $ pierheather drift 1520-3-19 1612-5-14\n";

static const char help_lunar_month[] =
    "usage: pierheather lunar-month [--edition N] DAY\n"
    "\n"
    "The latest new-moon day at or before a day.\n"
    "\n"
    "DAY is a day's number or a civil date.\n"
    "\n"
    "    $ pierheather lunar-month 1612-5-14\n"
    "\n"
    "  --edition N   reckon the Moon by edition 1 or 2\n";

static const char help_iso[] =
    "usage: pierheather iso --to-days [FILE]\n"
    "       pierheather iso --to-dates [FILE]\n"
    "\n"
    "ISO dates to day numbers and back, a line each.\n"
    "\n"
    "At most 4,096 lines, all of them or none.\n"
    "\n"
    "    $ pierheather iso --to-days dates.txt\n";

static const char help_almanac[] =
    "usage: pierheather almanac write FIRST LAST\n"
    "       pierheather almanac read [FILE]\n"
    "\n"
    "Write an almanac file, or check one and print its days.\n"
    "\n"
    "The file is written to standard output, in blocks of 512 bytes with a checksum\n"
    "(docs/almanac.md).\n"
    "\n"
    "    $ pierheather almanac write 1612-1-1 1612-12-31 > 1612.alm\n";

static const struct form forms[] = {
    {.name = "find", .second = NULL, .help = help_find,
     .usage = "pierheather find [--names | --csv] [--edition N] [PAGE]", .usages = "pierheather find [--names | --csv] [--edition N] [PAGE]",
     .waits = "a page", .edition = "edition ", .kind = PAGE, .options = WITH_NAMES | WITH_CSV | WITH_EDITION,
     .printed = pierheather_find},
    {.name = "why", .second = NULL, .help = help_why,
     .usage = "pierheather why [--names] [--edition N] DAY [PAGE]", .usages = "pierheather why [--names] [--edition N] DAY [PAGE]",
     .waits = "a page", .edition = "edition ", .kind = DAY_PAGE, .options = WITH_NAMES | WITH_EDITION,
     .printed = pierheather_why},
    {.name = "day", .second = NULL, .help = help_day,
     .usage = "pierheather day [--edition N] DAY", .usages = "pierheather day [--edition N] DAY",
     .waits = NULL, .edition = "edition ", .kind = WORDS, .options = WITH_EDITION,
     .of_text = pierheather_day},
    {.name = "saka", .second = NULL, .help = help_saka,
     .usage = "pierheather saka YEAR MONTH TITHI WEEKDAY", .usages = "pierheather saka YEAR MONTH TITHI WEEKDAY",
     .waits = NULL, .edition = "", .kind = WORDS, .options = 0,
     .of_text = pierheather_saka},
    {.name = "month", .second = NULL, .help = help_month,
     .usage = "pierheather month [--names | --csv] [--days N] [--edition N] DAY", .usages = "pierheather month [--names | --csv] [--days N] [--edition N] DAY",
     .waits = NULL, .edition = "edition ", .kind = WORDS, .options = WITH_NAMES | WITH_CSV | WITH_DAYS | WITH_EDITION,
     .of_text = pierheather_month},
    {.name = "signs", .second = NULL, .help = help_signs,
     .usage = "pierheather signs [--true] FIRST LAST", .usages = "pierheather signs [--true] FIRST LAST",
     .waits = NULL, .edition = "", .kind = WORDS, .options = WITH_TRUE,
     .of_text = pierheather_signs},
    {.name = "plate", .second = NULL, .help = help_plate,
     .usage = "pierheather plate DAY", .usages = "pierheather plate DAY",
     .waits = NULL, .edition = "", .kind = WORDS, .options = 0,
     .of_text = pierheather_plate},
    {.name = "drift", .second = NULL, .help = help_drift,
     .usage = "pierheather drift FIRST LAST", .usages = "pierheather drift FIRST LAST",
     .waits = NULL, .edition = "", .kind = WORDS, .options = 0,
     .of_text = pierheather_drift},
    {.name = "lunar-month", .second = NULL, .help = help_lunar_month,
     .usage = "pierheather lunar-month [--edition N] DAY", .usages = "pierheather lunar-month [--edition N] DAY",
     .waits = NULL, .edition = "", .kind = WORDS, .options = WITH_EDITION,
     .of_text = pierheather_lunar_month},
    {.name = "iso", .second = "--to-days", .help = help_iso,
     .usage = "pierheather iso --to-days [FILE]", .usages = "pierheather iso --to-days [FILE], or pierheather iso --to-dates [FILE]",
     .waits = "dates, a line each", .edition = "", .kind = LINES, .options = 0,
     .of_text = pierheather_dates_to_days},
    {.name = "iso", .second = "--to-dates", .help = help_iso,
     .usage = "pierheather iso --to-dates [FILE]", .usages = "pierheather iso --to-days [FILE], or pierheather iso --to-dates [FILE]",
     .waits = "days, a line each", .edition = "", .kind = LINES, .options = 0,
     .of_text = pierheather_days_to_dates},
    {.name = "almanac", .second = "write", .help = help_almanac,
     .usage = "pierheather almanac write FIRST LAST", .usages = "pierheather almanac write FIRST LAST, or pierheather almanac read [FILE]",
     .waits = NULL, .edition = "", .kind = WORDS, .options = 0,
     .of_text = pierheather_almanac_write},
    {.name = "almanac", .second = "read", .help = help_almanac,
     .usage = "pierheather almanac read [FILE]", .usages = "pierheather almanac write FIRST LAST, or pierheather almanac read [FILE]",
     .waits = "an almanac file", .edition = "", .kind = STREAM, .options = 0,
     .of_input = pierheather_almanac_read},
};

#endif
