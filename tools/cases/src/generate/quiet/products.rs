//! A product for each condition and each comparison of a missing frequency.

use super::*;

const fn rule(number: u64) -> u64 {
    KEY as u64 + number
}

/// Rules: with a norm maximum of 1,000, 2,500 and 3,000; with a norm minimum; with an absolute maximum alone; not
/// in 649; with an absolute maximum beside 1,000; twice in 649; with great norm maxima.
const R1000: u64 = rule(1);
const R2500: u64 = rule(2);
const R3000: u64 = rule(3);
const MINIMUM: u64 = rule(4);
const NO_MAXIMUM: u64 = rule(5);
const ABSENT: u64 = rule(6);
const ABSOLUTE: u64 = rule(7);
const TWICE: u64 = rule(8);
const GREAT: u64 = rule(9);
const NEARLY: u64 = rule(10);
const GREATEST: u64 = rule(11);

const LIMITS: [[u64; 4]; 11] = [
    [R1000, 0, 1_000, 0],
    [R2500, 0, 2_500, 0],
    [R3000, 0, 3_000, 0],
    [MINIMUM, 1, 4_000, 0],
    [NO_MAXIMUM, 0, 0, 9_000],
    [ABSOLUTE, 0, 1_000, 5_000],
    [TWICE, 0, 1_000, 0],
    [TWICE, 0, 1_000, 0],
    [GREAT, 0, 500_000_000, 0],
    [NEARLY, 0, 999_999_998, 0],
    [GREATEST, 0, 999_999_999, 0],
];

const TWO: Row = row(2, R1000);
const EVERY_TWO_DAYS: Row = Row { unit: PER_2_DAYS, ..TWO };
const LIGHT: Bounds = (0, 70_000);
const HEAVY: Bounds = (70_000, 80_000);
const SMALL: Bounds = (0, 1_500);
const LARGE: Bounds = (1_500, 2_000);

/// Of a product: GPRISC, its settings, the rows of its category.
type Product = (u64, &'static [Of642], &'static [Row]);

pub const PLAIN: usize = 0;
pub const OF_REASONS: usize = 1;
pub const NARROW: usize = 2;
pub const NARROW_BY_WEIGHT: usize = 3;
pub const OTHER: usize = 4;
pub const OTHER_BY_WEIGHT: usize = 5;
pub const DAY_AND_TWO_DAYS: usize = 6;
pub const TWO_DAYS: usize = 7;
pub const YOUNG: usize = 8;
pub const TWO_DAYS_BY_WEIGHT: usize = 9;
pub const WEIGHTS: usize = 10;
pub const SURFACES: usize = 11;
pub const BOTH: usize = 12;
pub const IN_VAIN: usize = 13;
pub const ABSENT_BY_SURFACE: usize = 14;
pub const WITH_MINIMUM: usize = 15;
pub const MINIMUM_FIRST: usize = 16;
pub const WITH_ABSENT: usize = 17;
pub const ABSENT_FIRST: usize = 18;
pub const WITH_TWICE: usize = 19;
pub const TWICE_FIRST: usize = 20;
pub const WITHOUT_MAXIMUM: usize = 21;
pub const WITH_OTHER_MAXIMUM: usize = 22;
pub const ABSOLUTE_ABOVE: usize = 23;
pub const APART: usize = 24;
pub const CROSSED: usize = 25;
pub const HIGHEST_ALONE: usize = 26;
pub const ONE_RULE: usize = 27;
pub const GREAT_4: usize = 28;
pub const NEARLY_2: usize = 29;
pub const GREATEST_2: usize = 30;

const BY_WEIGHT: &[Row] = &[Row { weight: LIGHT, ..TWO }, Row { weight: HEAVY, ..TWO }];

const PRODUCTS: [Product; 31] = [
    (0, &[GENERAL], &[TWO]),
    (0, &[GENERAL, [Q_GENERAL, 1, 0], [Q_GENERAL, 0, 5]], &[TWO]),
    (1, &[GENERAL], &[TWO]),
    (1, &[GENERAL], BY_WEIGHT),
    (0, &[[5_000, 0, 0], [17_552, 0, 0], [17_751, 0, 0], [17_753, 0, 0]], &[TWO]),
    (0, &[[5_000, 0, 0]], BY_WEIGHT),
    (0, &[GENERAL], &[TWO, EVERY_TWO_DAYS]),
    (0, &[GENERAL], &[Row { weight: LIGHT, ..EVERY_TWO_DAYS }]),
    (0, &[GENERAL], &[Row { age: (0, 240_000), weight: LIGHT, ..TWO }, EVERY_TWO_DAYS]),
    (0, &[GENERAL], &[TWO, Row { weight: LIGHT, surface: SMALL, ..Row { rule: MINIMUM, ..EVERY_TWO_DAYS } }]),
    (0, &[GENERAL], &[Row { weight: LIGHT, ..TWO }, Row { weight: HEAVY, ..row(2, MINIMUM) }]),
    (0, &[GENERAL], &[Row { surface: SMALL, ..TWO }, Row { surface: LARGE, ..row(2, MINIMUM) }]),
    (0, &[GENERAL], &[Row { weight: LIGHT, ..TWO }, Row { weight: HEAVY, surface: SMALL, ..TWO }]),
    (0, &[GENERAL], &[Row { weight: LIGHT, ..row(2, MINIMUM) }, Row { weight: HEAVY, ..row(2, MINIMUM) }]),
    (0, &[GENERAL], &[Row { surface: SMALL, ..row(2, ABSENT) }, Row { surface: LARGE, ..row(2, NO_MAXIMUM) }]),
    (0, &[GENERAL], &[TWO, row(4, MINIMUM)]),
    (0, &[GENERAL], &[row(4, MINIMUM), TWO]),
    (0, &[GENERAL], &[TWO, row(4, ABSENT)]),
    (0, &[GENERAL], &[row(4, ABSENT), TWO]),
    (0, &[GENERAL], &[TWO, row(4, TWICE)]),
    (0, &[GENERAL], &[row(4, TWICE), TWO]),
    (0, &[GENERAL], &[row(2, NO_MAXIMUM)]),
    (0, &[GENERAL], &[row(4, NO_MAXIMUM), TWO]),
    (0, &[GENERAL], &[row(2, ABSOLUTE)]),
    (0, &[GENERAL], &[row(1, R3000), row(10, R1000)]),
    (0, &[GENERAL], &[row(1, R3000), row(3, R1000)]),
    (0, &[GENERAL], &[row(1, R3000), row(3, R2500)]),
    (0, &[GENERAL], &[row(1, R1000), row(4, R1000)]),
    (0, &[GENERAL], &[row(4, GREAT)]),
    (0, &[GENERAL], &[row(2, NEARLY)]),
    (0, &[GENERAL], &[row(2, GREATEST)]),
];

/// SRTCDE of the conversions, and the unit that is converted; CODE is counted from KEY on.
pub const CONVERTED: u32 = 8;
pub const CONVERTED_UNIT: u32 = 245;

/// Amounts of the base unit and of the entered one. 2,000,000,000 times 9,223,372,037 is just above 2^64; the square of
/// 999,999,999, and that of 999,999,998, are one more than the product of the numbers beside.
const AMOUNTS: [[u64; 2]; 6] = [
    [1_000, 3_000],
    [1_000, 9_223_372_037],
    [9_223_372_037, 9_223_372_036],
    [1_000_000_000, 999_999_999],
    [333_333_333, 499_999_999],
    [9_223_372_060, 9_223_372_037],
];

pub fn tables() -> Case {
    let mut case = Case::empty();
    for (key, (gprisc, settings, rows)) in (KEY as u64..).zip(PRODUCTS) {
        push(&mut case, key, gprisc, settings, rows);
    }
    LIMITS.iter().for_each(|limits| case.push(T649, limits));
    for (code, [base, entered]) in (KEY as u64 + 1..).zip(AMOUNTS) {
        case.push(T730, &[CONVERTED as u64, code, base, 233]);
        case.push(T730, &[CONVERTED as u64, code, entered, CONVERTED_UNIT as u64]);
    }
    case
}
