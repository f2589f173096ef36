//! P4: a Saka date in words, as the programs `day` and `saka` read it, and the two days that the rule has for
//! it: without the mark of an extra month still to come, and with it (paper 02, L4).

use super::almanac::Almanac;
use super::edition::Edition;
use super::forms::Forms;
use super::refusal::Answer;
use super::saka::SakaDate;

/// A day that the rule has, and whether "weekday and tithi both are what was asked".
#[derive(Clone, Copy, PartialEq, Eq, Debug)]
pub struct Given {
    pub day: u32,
    pub fits: bool,
}

/// "The year, the months elapsed in it or the name of the one that runs, the tithis elapsed in the month or the
/// one that runs [...], and the weekday": the first two words, the last one, and what is between them. None for
/// words of another form; numbers out of range are left to the rule.
pub fn date_in(forms: &Forms, words: &[&[u8]]) -> Option<SakaDate> {
    let [year, months, tithis @ .., weekday] = words else {
        return None;
    };
    Some(SakaDate {
        year: forms.number(year)?,
        months: forms.value("month", months)?,
        tithis: forms.tithi(tithis)?,
        weekday: forms.value("weekday", weekday)?,
        pending: false,
    })
}

/// The answer without the mark, and the one with it. The tithi is that at sunrise in an edition.
pub fn answers(almanac: &Almanac, edition: Edition, date: SakaDate) -> [Answer<Given>; 2] {
    [false, true].map(|pending| {
        let day = SakaDate { pending, ..date }.day()?;
        let own = almanac.day(day)?;
        let asked = (date.weekday, date.tithis);
        let fits = (own.weekday, own.elements(edition).tithi) == asked;
        Ok(Given { day, fits })
    })
}

/// The day that `day` takes: "the one without the mark, unless only the other has the weekday and the tithi".
pub fn taken(almanac: &Almanac, edition: Edition, date: SakaDate) -> Answer<u32> {
    let [unmarked, marked] = answers(almanac, edition, date);
    let fitting = [unmarked, marked]
        .into_iter()
        .flatten()
        .find(|given| given.fits);
    let given = fitting.map_or(unmarked, Ok)?;
    Ok(given.day)
}
