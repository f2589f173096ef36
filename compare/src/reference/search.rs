//! Paper 01, "A reading and its walk", with the edition that a reading names by paper 02, L8, the set
//! of weekdays and the one or two arcs of a body that it has by L9, and the sets of limbs and the arcs
//! of true places that it has by P1. A reading is here a query, a fitting day a matching day, the
//! walk's days are the visited days, and a place of the lent list is an entry.

use super::almanac::{Almanac, Day};
use super::days::LAST_DAY;
use super::edition::Edition;
use super::exact::{reduced, Fraction};
use super::longitudes::SUN;
use super::planets::TRUE_SUN;
use super::refusal::{Answer, BAD_CONDITION, LAST_BEFORE_FIRST, OUT_OF_RANGE};

/// "An arc: a start, and a width from 1 to 1,296,000."
#[derive(Clone, Copy, Debug)]
pub struct Arc {
    pub start: u32,
    pub width: u32,
}

impl Arc {
    pub const fn new(start: u32, width: u32) -> Arc {
        Arc { start, width }
    }

    fn well_formed(self) -> bool {
        self.start <= 1_295_999 && self.width >= 1 && self.width <= 1_296_000
    }

    /// "A place is in the arc if (place − start), reduced by whole circles, is below the width."
    fn holds(self, place: u32) -> bool {
        reduced(i128::from(place) - i128::from(self.start)) < self.width
    }

    /// P1: "made wider by that on both sides (the whole circle where that is no less than a circle)".
    fn widened(self, by: u32) -> Arc {
        let width = self.width + 2 * by;
        if width >= 1_296_000 {
            Arc::new(0, 1_296_000)
        } else {
            Arc::new(reduced(i128::from(self.start) - i128::from(by)), width)
        }
    }

    /// Where one who is outside the arc next comes to its start: this side of 0, or a circle on.
    fn next_start(self, place: u32) -> u32 {
        if self.start > place {
            self.start
        } else {
            self.start + 1_296_000
        }
    }
}

/// L9: "each arc becomes one or two arcs, either of which will do". Neither need be given, and the
/// second may be given alone.
#[derive(Clone, Copy, Debug)]
pub struct Arcs {
    pub first: Option<Arc>,
    pub second: Option<Arc>,
}

impl Arcs {
    pub const NONE: Arcs = Arcs {
        first: None,
        second: None,
    };

    pub const fn one(arc: Arc) -> Arcs {
        Arcs {
            first: Some(arc),
            second: None,
        }
    }

    pub const fn second_alone(arc: Arc) -> Arcs {
        Arcs {
            first: None,
            second: Some(arc),
        }
    }

    pub const fn two(first: Arc, second: Arc) -> Arcs {
        Arcs {
            first: Some(first),
            second: Some(second),
        }
    }

    pub fn given(self) -> impl Iterator<Item = Arc> {
        self.first.into_iter().chain(self.second)
    }

    fn well_formed(self) -> bool {
        self.given().all(Arc::well_formed)
    }

    fn widened(self, by: u32) -> Arcs {
        let [first, second] = [self.first, self.second].map(|arc| arc.map(|arc| arc.widened(by)));
        Arcs { first, second }
    }

    /// Where one or two are given, a place in one of these will do; where none is, every place.
    pub fn allow(self, place: u32) -> bool {
        self.given().count() == 0 || self.given().any(|arc| arc.holds(place))
    }

    /// L9: "the walk measures g to the nearer start ahead" of a place outside the arcs.
    fn ahead(self, place: u32) -> Option<u32> {
        let starts = self.given().map(|arc| arc.next_start(place));
        starts.min().map(|nearer| nearer - place)
    }
}

/// The sets of a query, by the names of what is in them.
pub const WEEKDAY: usize = 0;
pub const TITHI: usize = 1;
pub const NAKSHATRA: usize = 2;
pub const YOGA: usize = 3;
pub const KARANA: usize = 4;

/// The least and the largest number of each set. "Refusals by number", 6: "weekday 6, tithi 29,
/// nakshatra and yoga 26 are the largest". P1: "a set of karanas (1 to 11)".
pub const RANGES: [(u32, u32); 5] = [(0, 6), (0, 29), (0, 26), (0, 26), (1, 11)];

/// Which of the numbers from 0 up will do.
type Numbers = [bool; 32];

/// The numbers of a set, which is a number "with a bit for each weekday, Monday the lowest" (L9), and so
/// for the other sets: they are read off one by one, and the number halved each time.
fn numbers_of(set: u32) -> Numbers {
    let mut left = set;
    [(); 32].map(|()| {
        let stands = left % 2 == 1;
        left /= 2;
        stands
    })
}

/// The set of some numbers. Those from 31 up have a bit together, which is in no range.
pub fn set_of(numbers: &[u32]) -> u32 {
    let bits = numbers.iter().map(|number| 1 << number.min(&31));
    bits.fold(0, |set, bit: u32| set | bit)
}

/// Every number where no set is given. L9: "6 also for an empty weekday set"; P1: "refused with 6: an
/// empty set, a set with a number out of range".
fn numbers_in(set: Option<u32>, (least, largest): (u32, u32)) -> Answer<Numbers> {
    let Some(set) = set else {
        return Ok([true; 32]);
    };
    let numbers = numbers_of(set);
    let mut standing = (0..32).filter(|number| numbers[*number as usize]);
    let in_range = standing.all(|number| (least..=largest).contains(&number));
    if in_range && numbers.contains(&true) {
        Ok(numbers)
    } else {
        Err(BAD_CONDITION)
    }
}

/// "A reading has a first and a last day, both counted, and optionally one weekday, one tithi, one
/// nakshatra, one yoga, and for each of the nine mean places an arc." L8: it names its edition. L9:
/// its "single weekday becomes a set of weekdays", and each arc "one or two". P1: "Tithi, nakshatra and
/// yoga each become a set, and a set of karanas (1 to 11) joins them"; of the seven true places "one or
/// two arcs each may be asked".
#[derive(Clone, Debug)]
pub struct Query {
    pub edition: u32,
    pub first: u32,
    pub last: u32,
    /// The number of each set.
    pub sets: [Option<u32>; 5],
    /// Of the nine mean places, and behind them of the seven true ones.
    pub arcs: [Arcs; 16],
}

/// What a query that isn't refused names by numbers.
pub struct Named {
    edition: Edition,
    sets: [Numbers; 5],
}

/// What the search has to give where it isn't refused before the list is looked at.
pub struct Found {
    /// The query's.
    pub edition: Edition,
    /// "A fitting day is a day of the span that meets all conditions given."
    pub matching: Vec<u32>,
    /// The days of the walk.
    pub visited: Vec<u32>,
    /// The most that may be visited; none where no Sun arc is given.
    pub limit: Option<u32>,
}

/// What the look says of a day.
pub struct Look {
    pub matches: bool,
    pub next: u32,
}

/// P1: "the true Sun is never farther from the mean Sun than the largest equation, 7,845 seconds".
pub const LARGEST_EQUATION: u32 = 7845;

impl Query {
    /// In edition 1.
    pub fn without_conditions(first: u32, last: u32) -> Query {
        Query {
            edition: 1,
            first,
            last,
            sets: [None; 5],
            arcs: [Arcs::NONE; 16],
        }
    }

    /// The host's search "gives just a Sun arc and a weekday, both always" ("What the table
    /// reckons"), and "the C calls stay edition 1" (L8).
    pub fn of_host(first: u32, last: u32, sun: Arc, weekday: u32) -> Query {
        let mut query = Query::without_conditions(first, last);
        query.sets[WEEKDAY] = Some(set_of(&[weekday]));
        query.arcs[SUN] = Arcs::one(sun);
        query
    }

    /// "Order: search 2, 5, 6, 7", and 14 "before all others" (L8); 7 needs the list and comes
    /// later. A query that isn't refused has an edition and sets.
    pub fn well_formed(&self) -> Answer<Named> {
        let edition = Edition::numbered(self.edition)?;
        if self.first > LAST_DAY || self.last > LAST_DAY {
            Err(OUT_OF_RANGE)
        } else if self.last < self.first {
            Err(LAST_BEFORE_FIRST)
        } else if !self.arcs.iter().all(|arcs| arcs.well_formed()) {
            Err(BAD_CONDITION)
        } else {
            let mut sets = [[true; 32]; 5];
            for (at, numbers) in sets.iter_mut().enumerate() {
                *numbers = numbers_in(self.sets[at], RANGES[at])?;
            }
            Ok(Named { edition, sets })
        }
    }

    /// "Meets all conditions given, by the weekday, tithi, nakshatra, yoga and mean places that
    /// the rules above give that day." "A reading without conditions fits every day." L8: "in
    /// edition 2 with the true Moon so changed". P1: "a day meets it if its own is in the set".
    fn met_by(&self, day: &Day, named: &Named) -> bool {
        let own = day.numbers(named.edition);
        (0..5).all(|at| named.sets[at][own[at] as usize])
            && (0..16).all(|body| self.arcs[body].allow(day.place(body, named.edition)))
    }

    /// "Fitting days are defined from the span alone and not from the walk": every day is tested.
    fn matching_days(&self, days: &[Day], named: &Named) -> Vec<u32> {
        (self.first..=self.last)
            .filter(|day| self.met_by(&days[*day as usize], named))
            .collect()
    }

    /// "After a day whose mean Sun is in the Sun's arc, and always where no Sun arc is given,
    /// comes the next day. After a day outside it with g seconds forward to the arc's start comes
    /// the day g / 3549, rounded up, later." L8: "The Sun's walk is one for both." L9: "a day in
    /// either arc counts as inside".
    fn visited_after(&self, number: u32, day: &Day) -> u32 {
        let (arcs, sun) = (self.arcs[SUN], day.mean[SUN]);
        match arcs.ahead(sun) {
            Some(g) if !arcs.allow(sun) => {
                number + Fraction::new(i128::from(g), 3549).ceiling() as u32
            }
            _ => number + 1,
        }
    }

    /// "One function, the look, takes a reading and a day and says, by a full statement, whether the
    /// day fits and which day the walk takes next." It refuses as the search does, and with 2 for its
    /// own day too, after 14. A day outside the span doesn't fit, and is followed as if the walk came
    /// to it.
    pub fn look(&self, almanac: &Almanac, number: u32) -> Answer<Look> {
        Edition::numbered(self.edition)?;
        let day = almanac.day(number)?;
        let named = self.well_formed()?;
        let in_span = (self.first..=self.last).contains(&number);
        Ok(Look {
            matches: in_span && self.met_by(day, &named),
            next: self.visited_after(number, day),
        })
    }

    /// "The walk starts at the first day. [...] It ends past the last day."
    fn visited_days(&self, days: &[Day]) -> Vec<u32> {
        let mut visited = Vec::new();
        let mut number = self.first;
        while number <= self.last {
            visited.push(number);
            number = self.visited_after(number, &days[number as usize]);
        }
        visited
    }

    /// "The whole 360 days of a span are its days, both ends counted, divided by 360 and rounded
    /// down." The limit of demand 3 on the days looked at, where a Sun arc is given: the days of the
    /// span in the arc, and four, and two for each whole 360 days. L9: with two arcs, "eight and four
    /// in place of four and two".
    fn limit(&self, days: &[Day]) -> Option<u32> {
        let arcs = self.arcs[SUN];
        let (more, for_each) = match arcs.given().count() {
            0 => return None,
            1 => (4, 2),
            _ => (8, 4),
        };
        let span = &days[self.first as usize..=self.last as usize];
        let inside = span.iter().filter(|day| arcs.allow(day.mean[SUN])).count() as u32;
        Some(inside + more + for_each * (span.len() as u32 / 360))
    }

    /// P1, "Haste for a true Sun": the query that also asks for the mean Sun, where this one asks for
    /// the true Sun and not for the mean Sun; any other as it is.
    pub fn hastened(&self) -> Query {
        let mut query = self.clone();
        if self.arcs[SUN].given().count() == 0 {
            query.arcs[SUN] = self.arcs[TRUE_SUN].widened(LARGEST_EQUATION);
        }
        query
    }

    /// P1: what `find` has to find. The days are those of this query, whose span is tested day by day;
    /// "`looked` tells the number of the walk that was made".
    pub fn hastened_search(&self, almanac: &Almanac) -> Answer<Found> {
        let (found, hastened) = (self.search(almanac)?, self.hastened());
        Ok(Found {
            visited: hastened.visited_days(almanac.days()),
            limit: hastened.limit(almanac.days()),
            ..found
        })
    }

    pub fn search(&self, almanac: &Almanac) -> Answer<Found> {
        let named = self.well_formed()?;
        Ok(Found {
            edition: named.edition,
            matching: self.matching_days(almanac.days(), &named),
            visited: self.visited_days(almanac.days()),
            limit: self.limit(almanac.days()),
        })
    }
}

impl Found {
    /// The walk comes to every fitting day, or the paper's jump were wrong.
    pub fn walk_misses_none(&self) -> bool {
        let visited = |day: &u32| self.visited.binary_search(day).is_ok();
        self.matching.iter().all(visited)
    }
}
