/* The headings of a catalogue, and the names that it prints, as docs/find.md has them. */
static const char *const HEADINGS[] = {
    "day date weekday tithi nakshatra yoga karana",
    "   day  date        weekday    tithi                nakshatra          yoga        karana",
    "day,date,iso,weekday_number,weekday,tithi_number,tithi,nakshatra_number,nakshatra,yoga_number,yoga,karana_number,"
    "karana\r"};
static const char *const WEEKDAYS[] = {"monday", "tuesday", "wednesday", "thursday", "friday", "saturday", "sunday"};
static const char *const TITHIS[] = {"shukla-pratipada", "shukla-dvitiya", "shukla-tritiya", "shukla-chaturthi",
    "shukla-panchami", "shukla-shashthi", "shukla-saptami", "shukla-ashtami", "shukla-navami", "shukla-dashami",
    "shukla-ekadashi", "shukla-dvadashi", "shukla-trayodashi", "shukla-chaturdashi", "purnima", "krishna-pratipada",
    "krishna-dvitiya", "krishna-tritiya", "krishna-chaturthi", "krishna-panchami", "krishna-shashthi",
    "krishna-saptami", "krishna-ashtami", "krishna-navami", "krishna-dashami", "krishna-ekadashi", "krishna-dvadashi",
    "krishna-trayodashi", "krishna-chaturdashi", "amavasya"};
static const char *const NAKSHATRAS[] = {"ashvini", "bharani", "krittika", "rohini", "mrigashira", "ardra",
    "punarvasu", "pushya", "ashlesha", "magha", "purva-phalguni", "uttara-phalguni", "hasta", "chitra", "svati",
    "vishakha", "anuradha", "jyeshtha", "mula", "purva-ashadha", "uttara-ashadha", "shravana", "dhanishtha",
    "shatabhisha", "purva-bhadrapada", "uttara-bhadrapada", "revati"};
static const char *const YOGAS[] = {"vishkambha", "priti", "ayushman", "saubhagya", "shobhana", "atiganda", "sukarma",
    "dhriti", "shula", "ganda", "vriddhi", "dhruva", "vyaghata", "harshana", "vajra", "siddhi", "vyatipata",
    "variyan", "parigha", "shiva", "siddha", "sadhya", "shubha", "shukla", "brahma", "indra", "vaidhriti"};
static const char *const KARANAS[] = {"bava", "balava", "kaulava", "taitila", "gara", "vanija", "vishti", "shakuni",
    "chatushpada", "naga", "kimstughna"};
