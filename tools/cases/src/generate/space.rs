//! Small dense spaces of codes and numbers, so that rows collide.

use crate::random::Random;

pub const Q_GENERAL: u64 = 17_752;
pub const NO_UPPER: u64 = 999_999;
pub const TIME_UNITS: [u64; 12] = [19, 21, 22, 35, 36, 40, 41, 45, 46, 50, 51, 0];
pub const REASONS: [u64; 4] = [Q_GENERAL, 5_000, 17_552, 0];
pub const UNITS: [u64; 4] = [233, 303, 245, 0];
pub const PRIMES: [u64; 8] = [2, 3, 7, 13, 101, 997, 99_991, 9_999_991];

pub fn gpk(r: &mut Random) -> u64 {
    r.between(1, 3)
}

/// Of a PRK or an HPK.
pub fn product(r: &mut Random) -> u64 {
    r.between(1, 3)
}

pub fn basis(r: &mut Random) -> u64 {
    r.between(1, 5)
}

pub fn category(r: &mut Random) -> u64 {
    r.between(1, 4)
}

pub fn rule(r: &mut Random) -> u64 {
    r.between(1, 6)
}

pub fn care(r: &mut Random) -> u64 {
    r.between(2, 3)
}

pub fn route(r: &mut Random) -> u64 {
    r.below(3)
}

pub fn count(r: &mut Random) -> u64 {
    r.pick(&[1, 2, 3, 1, 2, 999])
}

pub fn time_unit(r: &mut Random) -> u64 {
    r.pick(&TIME_UNITS)
}

/// Months.
pub fn age(r: &mut Random) -> u64 {
    let any = r.below(1_801);
    r.pick(&[0, 1, 72, 215, 216, 217, 240, 998, 999, 1_000, 1_080, 1_800, any])
}

pub fn weight(r: &mut Random) -> u64 {
    let any = r.between(1, 999_999);
    r.pick(&[1, 2, 69_999, 70_000, 70_001, 80_000, 80_001, 999_998, 999_999, any])
}

pub fn surface(r: &mut Random) -> u64 {
    let any = r.between(1, 9_999);
    r.pick(&[1, 2, 1_499, 1_500, 1_501, 9_998, 9_999, any])
}

/// Low and high around a number, often tight: equal ends, one end on it, no upper bound, or no bounds at all.
pub fn around(r: &mut Random, number: u64) -> (u64, u64) {
    let number = number.min(NO_UPPER);
    let low = match r.below(4) {
        0 => number,
        1 => number.saturating_sub(1),
        2 => r.below(number + 1),
        _ => 0,
    };
    let high = match r.below(5) {
        0 => number,
        1 => number + 1,
        2 => number + r.below(50_000),
        _ => NO_UPPER,
    };
    (low, high.min(NO_UPPER).max(low))
}

/// Low and high that leave a number out, often by one; `None` where that number fits everywhere.
pub fn beside(r: &mut Random, number: u64) -> (u64, u64) {
    let above = number < NO_UPPER && (number == 0 || r.percent(50));
    if above {
        let low = if r.percent(50) { number + 1 } else { r.between(number + 1, NO_UPPER) };
        let high = r.pick(&[low, NO_UPPER, (low + 1).min(NO_UPPER)]);
        return (low, high);
    }
    let most = (number - 1).min(NO_UPPER - 1);
    let high = if r.percent(50) { most } else { r.below(most + 1) };
    let low = r.pick(&[0, high, high / 2]);
    (low, high)
}

/// A bound without a number in mind.
pub fn bounds(r: &mut Random, of: fn(&mut Random) -> u64) -> (u64, u64) {
    if r.percent(40) {
        return (0, NO_UPPER);
    }
    let number = of(r);
    around(r, number)
}

/// A limit of 649.
pub fn limit(r: &mut Random) -> u64 {
    let any = r.below(1_000_000_000);
    r.pick(&[0, 0, 1, 499, 500, 1_000, 1_001, 2_000, 999_999_999, any])
}

pub fn dose(r: &mut Random) -> u64 {
    let any = r.between(1, 999_999_999);
    r.pick(&[1, 2, 499, 500, 501, 999, 1_000, 1_001, 2_000, 2_001, 999_999_999, any])
}

/// A CDHOEV that passes step 2.
pub fn amount(r: &mut Random) -> u64 {
    let any = r.between(1, 9_999_999_999);
    let prime = r.pick(&PRIMES);
    r.pick(&[1, 1_000, 20_000, 400_000, prime, prime, any, 9_999_999_999])
}
