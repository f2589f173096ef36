//! Paper 02, "L13. Orders for the arms"; and P2's "orders for true places", which are "as L13, with the
//! true longitude in place of the mean one". Floats are their bits (`float`).

use super::almanac::Almanac;
use super::exact::short_way;
use super::float::{nearest, SIGN};
use super::places::Places;
use super::refusal::{Answer, NO_SUCH_BODY};

/// "An order is to hold, to go to an angle, or to run at a rate."
#[derive(Clone, Copy, PartialEq, Eq, Debug)]
pub enum Order {
    Hold,
    Go(u64),
    Run(u64),
}

/// "An arm's state holds its angle in degrees and its rate in degrees a day."
#[derive(Clone, Copy, PartialEq, Eq, Debug)]
pub struct Arm {
    pub angle: u64,
    pub rate: u64,
}

impl Arm {
    /// "Holding leaves the angle and makes the rate 0; going sets the angle and makes the rate 0; running
    /// sets the rate alone."
    pub fn after(self, order: Order) -> Arm {
        match order {
            Order::Hold => Arm { rate: 0, ..self },
            Order::Go(angle) => Arm { angle, rate: 0 },
            Order::Run(rate) => Arm { rate, ..self },
        }
    }
}

/// The quotients by 3600 of all seconds of a circle, "rounded once", reckoned once.
pub struct Degrees(Vec<u64>);

impl Degrees {
    pub fn of_circle() -> Degrees {
        let seconds = 0..1_296_000;
        Degrees(seconds.map(|seconds| nearest(seconds, 3600)).collect())
    }

    /// Of a place.
    pub fn angle(&self, seconds: u32) -> u64 {
        self.0[seconds as usize]
    }

    /// "Likewise divided and rounded once": a number and its opposite differ in the sign alone.
    pub fn rate(&self, seconds: i64) -> u64 {
        let sign = if seconds < 0 { SIGN } else { 0 };
        sign | self.0[seconds.unsigned_abs() as usize]
    }

    /// "Asked to place a body, the order is to go [...]. The angle is the [...] place's whole seconds
    /// divided by 3600, rounded once." "Refusals: 2, then 16 for a body above 8."
    pub fn place(
        &self,
        almanac: &Almanac,
        places: Places,
        number: u32,
        body: u32,
    ) -> Answer<Order> {
        let day = almanac.day(number)?;
        let seconds = places.of(day, body as usize).ok_or(NO_SUCH_BODY)?;
        Ok(Order::Go(self.angle(seconds)))
    }

    /// "Asked to follow it, to run [...]. The rate is the signed short way to the next day's whole
    /// seconds [...]. Asked to follow on the last day, the order is to hold."
    pub fn follow(
        &self,
        almanac: &Almanac,
        places: Places,
        number: u32,
        body: u32,
    ) -> Answer<Order> {
        let way = way_from(almanac, places, number, body)?;
        Ok(way.map_or(Order::Hold, |way| Order::Run(self.rate(way))))
    }
}

/// The signed short way of a body from a day to the next; none from the last.
pub fn way_from(almanac: &Almanac, places: Places, number: u32, body: u32) -> Answer<Option<i64>> {
    let day = almanac.day(number)?;
    let from = places.of(day, body as usize).ok_or(NO_SUCH_BODY)?;
    let next = almanac.day(number + 1).ok();
    let to = next.and_then(|next| places.of(next, body as usize));
    Ok(to.map(|to| short_way(from, to)))
}

/// "The order given is then to hold", with a refusal.
pub fn given(answer: &Answer<Order>) -> Order {
    answer.unwrap_or(Order::Hold)
}
