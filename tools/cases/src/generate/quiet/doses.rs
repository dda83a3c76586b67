//! Doses and limits that meet, or nearly: at a time, and in a day.

use super::super::space;
use crate::random::Random;

const LIMIT_MOST: u64 = 999_999_999;
const AMOUNT_MOST: u64 = 9_999_999_999;

/// What is entered, and what one of it is: a dose in base units is dose times base over entered.
#[derive(Clone, Copy)]
pub struct Doses {
    pub kind: Kind,
    pub count: u64,
    pub dose: u64,
    pub base: u64,
    pub entered: u64,
}

/// Of the same unit, of two, and of two whose amounts are so great that the products of a day pass 64 bits.
#[derive(Clone, Copy, PartialEq)]
pub enum Kind {
    SameUnit,
    Converted,
    Great,
}

impl Doses {
    /// Amounts are 1 and 1 where the units are the same.
    pub fn any(r: &mut Random) -> Doses {
        let kind = r.pick(&[Kind::SameUnit, Kind::SameUnit, Kind::Converted, Kind::Converted, Kind::Great]);
        let count = match kind {
            Kind::Great => r.between(1, 998),
            _ => r.pick(&[1, 2, 3, 3, 4, 5, 6, 12, 998]),
        };
        let dose = match kind {
            Kind::Great => great(r, LIMIT_MOST),
            _ if r.percent(15) => great(r, LIMIT_MOST),
            _ => r.pick(&[12, 333, 600, 999, 1_000, 1_200, 2_400, 2_666, 36_000]),
        };
        let (base, entered) = match kind {
            Kind::SameUnit => (1, 1),
            Kind::Converted if r.percent(50) => (space::amount(r), space::amount(r)),
            Kind::Converted => r.pick(&[(1_000, 20_000), (1_000, 3_000), (3_000, 1_000), (500, 1_000), (7, 13)]),
            Kind::Great => (great(r, AMOUNT_MOST), great(r, AMOUNT_MOST)),
        };
        Doses { kind, count, dose, base, entered }
    }

    /// For a row: few, so that they are not the entered one, and the greatest.
    pub fn row_count(&self, r: &mut Random) -> u64 {
        match self.kind {
            Kind::Great => r.pick(&[2, 10, 500, 998, 999]),
            _ => r.pick(&[1, 2, 2, 3, 4, 10, 999]),
        }
    }

    /// A norm maximum for a row of so many per day: none, any, or one that meets the dose at a time or in a day.
    pub fn maximum(&self, r: &mut Random, count: u64) -> u64 {
        let single = self.dose as u128 * self.base as u128 / self.entered as u128;
        let day = self.dose as u128 * (self.count * self.base) as u128 / (count * self.entered) as u128;
        let limit = match r.below(12) {
            0 => 0,
            1 => space::limit(r) as u128,
            2 => great(r, LIMIT_MOST) as u128,
            3..6 if self.kind == Kind::Great => great(r, LIMIT_MOST) as u128,
            3..6 => single,
            6..10 => day,
            _ => single.max(day) + r.below(1_000) as u128,
        };
        let limit = limit.min(LIMIT_MOST as u128) as u64;
        r.pick(&[limit, limit, limit + 1, limit + 1, limit.saturating_sub(1)]).min(LIMIT_MOST)
    }

    /// A dose and a norm maximum for so many per day that come as near to each other as two such numbers can, at a time
    /// or in a day; and yet one is above.
    pub fn nearest(&mut self, r: &mut Random, count: u64) -> u64 {
        let (base, entered) = match r.percent(50) {
            true => (self.base, self.entered),
            false => (self.count * self.base, count * self.entered),
        };
        let nearest = convergents(base, entered);
        let (maximum, dose) = nearest[nearest.len() - 1 - r.below(nearest.len().min(2) as u64) as usize];
        self.dose = dose;
        maximum
    }
}

fn great(r: &mut Random, most: u64) -> u64 {
    match r.below(4) {
        0 => most,
        _ => r.between(most / 20, most),
    }
}

/// The fractions nearest to `over` / `under` whose two numbers are limits or doses, ever nearer, from either side.
fn convergents(mut over: u64, mut under: u64) -> Vec<(u64, u64)> {
    let (mut before, mut last) = ((0, 1), (1, 0));
    let mut all = vec![];
    while under > 0 {
        let times = over / under;
        (over, under) = (under, over % under);
        let next = |last: u64, before: u64| times.checked_mul(last)?.checked_add(before);
        let (Some(p), Some(q)) = (next(last.0, before.0), next(last.1, before.1)) else { break };
        if p > LIMIT_MOST || q > LIMIT_MOST {
            break;
        }
        (before, last) = (last, (p, q));
        all.extend((p > 0).then_some(last));
    }
    if all.is_empty() {
        all.push((1, 1));
    }
    all
}

#[cfg(test)]
mod tests {
    use super::*;

    #[test]
    fn fractions_come_nearer() {
        // 415/93 = 4 + 1/(2 + 1/(6 + 1/7))
        assert_eq!(convergents(415, 93), [(4, 1), (9, 2), (58, 13), (415, 93)]);
        assert_eq!(convergents(1, 3), [(1, 3)]);
        assert_eq!(convergents(u64::MAX, 1), [(1, 1)]);
    }
}
