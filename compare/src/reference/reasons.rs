//! Paper 02, "L5. Why isn't my day in the list?", in the edition that the query names (L8), with L9's
//! sets of weekdays and one or two arcs and with P1's sets of limbs and arcs of true places. All
//! conditions stand in a list, each with what is asked and what the day has; the first in it that
//! doesn't hold is the reason.

use super::almanac::{Almanac, Day};
use super::edition::Edition;
use super::planets::TRUE_SUN;
use super::refusal::Answer;
use super::search::{set_of, Arcs, Query, KARANA};

/// "The value asked (the end of the span that was passed; an arc's start and width)." L9: "the whole
/// set, or both arcs"; P1: "the whole set or both arcs".
#[derive(Clone, Copy, Debug)]
pub enum Asked {
    From(u32),
    To(u32),
    /// Which of the sets it is, and its number.
    Set(usize, u32),
    Arcs(usize, Arcs),
}

/// "The first thing that shuts the day out", "with it the value asked [...] and the value found".
#[derive(Clone, Copy, Debug)]
pub struct Reason {
    /// The condition's number: its place in L5's order, from 1 to 15. P1's are 16 for karana and 17 to
    /// 23 for the true places, which need not be the order in which they are tested.
    pub condition: u32,
    pub asked: Asked,
    pub found: u32,
}

/// What is said of a day.
pub struct Why {
    /// L8: "the reasons of L5 name their edition".
    pub edition: Edition,
    /// None where the day fits.
    pub reason: Option<Reason>,
}

impl Asked {
    fn met_by(self, found: u32) -> bool {
        match self {
            Asked::From(first) => found >= first,
            Asked::To(last) => found <= last,
            Asked::Set(_, set) => set & set_of(&[found]) != 0,
            Asked::Arcs(_, arcs) => arcs.allow(found),
        }
    }
}

/// The number of the condition that one of a query's sets is.
pub fn of_set(at: usize) -> u32 {
    match at {
        KARANA => 16,
        _ => 3 + at as u32,
    }
}

/// The number of the condition that a body's arcs are.
pub fn of_arcs(body: usize) -> u32 {
    match body {
        ..TRUE_SUN => 7 + body as u32,
        _ => 17 + (body - TRUE_SUN) as u32,
    }
}

/// A condition's number, what is asked, if anything is, and what the day has.
type Condition = (u32, Option<Asked>, u32);

/// "In the order: before the span, after the span, weekday, tithi, nakshatra, yoga, then the arcs by
/// body number". P1: "L5's order goes on: … yoga, karana, the arcs of mean places by body number, then
/// the arcs of true places".
fn in_order<'a>(
    query: &'a Query,
    number: u32,
    day: &'a Day,
    edition: Edition,
) -> impl Iterator<Item = Condition> + 'a {
    let span = [
        (1, Some(Asked::From(query.first)), number),
        (2, Some(Asked::To(query.last)), number),
    ];
    let own = day.numbers(edition);
    let sets = (0..5).map(move |at| {
        let asked = query.sets[at].map(|set| Asked::Set(at, set));
        (of_set(at), asked, own[at])
    });
    let arcs = (0..16).map(move |body| {
        let asked = Some(Asked::Arcs(body, query.arcs[body]));
        (of_arcs(body), asked, day.place(body, edition))
    });
    span.into_iter().chain(sets).chain(arcs)
}

/// "Refusals: 2 for the day or span, then 5 and 6 as in the search"; 14 "before all others" (L8).
pub fn why(almanac: &Almanac, query: &Query, number: u32) -> Answer<Why> {
    let edition = Edition::numbered(query.edition)?;
    let day = almanac.day(number)?;
    query.well_formed()?;
    let mut conditions = in_order(query, number, day, edition);
    let reason = conditions.find_map(|(condition, asked, found)| {
        let unmet = asked.filter(|asked| !asked.met_by(found));
        unmet.map(|asked| Reason {
            condition,
            asked,
            found,
        })
    });
    Ok(Why { edition, reason })
}
