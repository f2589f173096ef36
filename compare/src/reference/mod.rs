//! The rules of paper 01, of paper 02's L1 to L5 and L7 to L14 and of P1 and P2, each written a second
//! time and by another method than the proved crates: exact fractions with one floor, dates by
//! walking the calendar day by day, searches, entries into signs, month turns and drifts that test
//! every day of their span, reasons from a list of all conditions, files read by writing them anew,
//! and floats made of whole numbers. Each function cites the paper's heading that it follows; the
//! page of `find` and what it prints, which the papers leave open, are described in `page` and
//! `catalogue`, what `engraving` prints in `plate`, what `month` prints in `month`, what `why`
//! reads and prints in `why`, what both say of a page that is likely to be meant otherwise in
//! `remarks`, what `lunar_month` does in `month_starts`, and what `signs` and `drift` read in
//! `span`, and print in `signs` and `drift`. P3's names are read out of the document in `names`,
//! texts in its forms are turned plain in `forms`, and lists are printed by its line `print` in `listing`.

pub mod almanac;
pub mod almanac_file;
pub mod arms;
pub mod catalogue;
pub mod civil;
pub mod days;
pub mod drift;
pub mod edition;
pub mod exact;
pub mod float;
pub mod forms;
pub mod iso;
pub mod list;
pub mod listing;
pub mod longitudes;
pub mod month;
pub mod month_starts;
pub mod motions;
pub mod names;
pub mod page;
pub mod panchanga;
pub mod places;
pub mod planets;
pub mod plate;
pub mod reasons;
pub mod records;
pub mod refusal;
pub mod remarks;
pub mod saka;
pub mod search;
pub mod sheet;
pub mod signs;
pub mod span;
pub mod true_places;
pub mod why;
