//! Every day of the table, reckoned once by stepping from day 0 to the last.

use std::collections::HashMap;

use super::civil::Date;
use super::days::{next_weekday, Pair, MONDAY};
use super::edition::Edition;
use super::longitudes::longitudes;
use super::panchanga::Elements;
use super::planets::{true_places, TRUE_MARS, TRUE_MOON, TRUE_SUN};
use super::refusal::{Answer, NO_SUCH_DATE, OUT_OF_RANGE};

/// All that the rules give a day.
#[derive(Clone, Debug)]
pub struct Day {
    pub date: Date,
    pub pair: Pair,
    pub weekday: u32,
    pub mean: [u32; 9],
    pub thirds: [u32; 9],
    pub planets: [u32; 5],
    first: Elements,
    second: Elements,
}

impl Day {
    fn reckon(date: Date, pair: Pair, weekday: u32) -> Day {
        let longitudes = longitudes(pair);
        let mean = longitudes.map(|longitude| longitude.seconds);
        Day {
            date,
            pair,
            weekday,
            mean,
            thirds: longitudes.map(|longitude| longitude.thirds),
            planets: true_places(&mean),
            first: Elements::of(&mean, Edition::First),
            second: Elements::of(&mean, Edition::Second),
        }
    }

    /// Weekday, tithi, nakshatra, yoga, karana.
    pub fn numbers(&self, edition: Edition) -> [u32; 5] {
        let [tithi, nakshatra, yoga, karana] = self.elements(edition).limbs();
        [self.weekday, tithi, nakshatra, yoga, karana]
    }

    /// The nine mean places, and from 9 on P1's "true longitudes of Sun, Moon, Mars, Mercury, Jupiter,
    /// Venus and Saturn, in this order": "the Moon's is that of the query's edition, the planets' those
    /// of L3".
    pub fn place(&self, body: usize, edition: Edition) -> u32 {
        match body {
            TRUE_SUN => self.elements(edition).sun,
            TRUE_MOON => self.elements(edition).moon,
            TRUE_MARS.. => self.planets[body - TRUE_MARS],
            _ => self.mean[body],
        }
    }

    /// L8: the elements "name their edition".
    pub fn elements(&self, edition: Edition) -> &Elements {
        match edition {
            Edition::First => &self.first,
            Edition::Second => &self.second,
        }
    }
}

pub struct Almanac {
    days: Vec<Day>,
    number_of: HashMap<Date, u32>,
    parted: Vec<u32>,
}

impl Almanac {
    /// Steps the dates, the pairs and the weekdays side by side until the pair has no next.
    pub fn from_epoch() -> Almanac {
        let mut almanac = Almanac {
            days: Vec::new(),
            number_of: HashMap::new(),
            parted: Vec::new(),
        };
        let (mut date, mut pair, mut weekday) = (Date::EPOCH, Pair::EPOCH, MONDAY);
        loop {
            let number = almanac.days.len() as u32;
            let day = Day::reckon(date, pair, weekday);
            almanac.number_of.insert(date, number);
            if day.first.limbs() != day.second.limbs() {
                almanac.parted.push(number);
            }
            almanac.days.push(day);
            match pair.next() {
                Ok(next) => pair = next,
                Err(_) => return almanac,
            }
            date = date.next();
            weekday = next_weekday(weekday);
        }
    }

    /// The days of the table, by number.
    pub fn days(&self) -> &[Day] {
        &self.days
    }

    /// The numbers of the days whose limbs differ from edition to edition.
    pub fn parted(&self) -> &[u32] {
        &self.parted
    }

    /// "Refusals by number", 2: "a day outside 0 to 401,599".
    pub fn day(&self, number: u32) -> Answer<&Day> {
        self.days.get(number as usize).ok_or(OUT_OF_RANGE)
    }

    /// L8: refused with 14, "before all others", and with 2.
    pub fn elements(&self, edition: u32, number: u32) -> Answer<&Elements> {
        let edition = Edition::numbered(edition)?;
        Ok(self.day(number)?.elements(edition))
    }

    /// "Refusals by number": "date 1, 2".
    pub fn number_of(&self, date: Date) -> Answer<u32> {
        if !date.exists() {
            return Err(NO_SUCH_DATE);
        }
        self.number_of.get(&date).copied().ok_or(OUT_OF_RANGE)
    }
}
