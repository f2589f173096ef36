//! The independent second program: it reckons everything anew from the papers (`reference`) and
//! compares each answer of the proved programs with its own (`runs`). README.md says how.

mod calls;
mod checks;
mod random;
mod reference;
mod runs;

use checks::Checks;
use reference::almanac::Almanac;

fn main() {
    let almanac = Almanac::from_epoch();
    let mut checks = Checks::new(std::env::args().skip(1).collect());
    checks.part("the paper's cases", |checks| {
        runs::worked::run(checks, &almanac)
    });
    checks.part("the star planets' laws", |checks| {
        runs::planet_laws::run(checks, &almanac)
    });
    checks.part("days", |checks| runs::days::run(checks, &almanac));
    checks.part("elements by edition", |checks| {
        runs::elements::run(checks, &almanac)
    });
    checks.part("parts of a second", |checks| {
        runs::longitudes::run(checks, &almanac)
    });
    checks.part("star planets", |checks| {
        runs::planets::run(checks, &almanac)
    });
    checks.part("rows of records", |checks| {
        runs::records::run(checks, &almanac)
    });
    checks.part("pairs and steps", runs::pairs::run);
    checks.part("civil dates", |checks| runs::civil::run(checks, &almanac));
    checks.part("dates as libraries write them", |checks| {
        runs::iso::run(checks, &almanac)
    });
    checks.part("Saka dates", runs::saka::run);
    checks.part("host searches", |checks| {
        runs::host_search::run(checks, &almanac)
    });
    checks.part("general searches", |checks| {
        runs::general_search::run(checks, &almanac)
    });
    checks.part("searches about the kept days", |checks| {
        runs::kept::run(checks, &almanac)
    });
    checks.part("looks", |checks| runs::look::run(checks, &almanac));
    checks.part("sets of weekdays and two arcs", |checks| {
        runs::smudged::run(checks, &almanac)
    });
    checks.part("sets of limbs and true places", |checks| {
        runs::half_read::run(checks, &almanac)
    });
    checks.part("days that differ by edition", |checks| {
        runs::parted::run(checks, &almanac)
    });
    checks.part("reasons", |checks| runs::reasons::run(checks, &almanac));
    checks.part("lunar months", |checks| {
        runs::month_starts::run(checks, &almanac)
    });
    checks.part("almanac files", |checks| {
        runs::almanac_file::run(checks, &almanac)
    });
    checks.part("entries into signs", |checks| {
        runs::signs::run(checks, &almanac)
    });
    checks.part("drift from the older books", |checks| {
        runs::drift::run(checks, &almanac)
    });
    checks.part("true places and their rates", |checks| {
        runs::true_rates::run(checks, &almanac)
    });
    checks.part("orders for the arms", |checks| {
        runs::arms::run(checks, &almanac)
    });
    checks.part("lines into a buffer", |checks| {
        runs::lines::run(checks, &almanac)
    });
    checks.part("day sheets", |checks| {
        runs::day_sheet::run(checks, &almanac)
    });
    checks.part("engravings", |checks| {
        runs::engraving::run(checks, &almanac)
    });
    checks.part("months", |checks| runs::month::run(checks, &almanac));
    checks.part("almanacs written and read", |checks| {
        runs::almanac_programs::run(checks, &almanac)
    });
    checks.part("pages", |checks| runs::find::run(checks, &almanac));
    checks.part("days and pages", |checks| runs::why::run(checks, &almanac));
    checks.part("remarks on pages", |checks| {
        runs::remarks::run(checks, &almanac)
    });
    checks.part("names by the documents", |checks| {
        runs::names::run(checks, &almanac)
    });
    checks.part("names in pages", |checks| {
        runs::named_pages::run(checks, &almanac)
    });
    checks.part("lists by names", |checks| {
        runs::listings::run(checks, &almanac)
    });
    println!("compare: {} checks, 0 differences", checks.total());
}
