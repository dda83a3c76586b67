//! The entry and its range (125).

use super::test::{Side, Test};

pub const FIELDS: usize = 22;

/// Blank, or not given, in the stream.
pub const BLANK: u32 = u32::MAX;

pub const CODE_MOST: u32 = 99_999_999;
pub const UNIT_MOST: u32 = 999_999;
pub const AGE_MOST: u32 = 1_800;
pub const WEIGHT_MOST: u32 = 999_999;
pub const SURFACE_MOST: u32 = 9_999;
pub const COUNT_MOST: u32 = 999;
pub const DOSE_MOST: u32 = 999_999_999;

pub const MONTHS_OFF: u32 = 0;
pub const MONTHS_ON: u32 = 1;
pub const QUIET_OFF: u32 = 0;
pub const QUIET_ON: u32 = 1;
/// Of a host that has text 8 alone for a missing frequency, and of one that has 24 and 25 beside it.
pub const EDITION_1: u32 = 1;
pub const EDITION_2: u32 = 2;

/// A field: its name, lowest and highest permitted number.
type Field = (&'static str, u32, u32);

/// Document 01's order, then P4's setting, then P7's edition.
pub const RANGES: [Field; FIELDS] = [
    ("GPK", 0, CODE_MOST),
    ("PRK", 1, CODE_MOST),
    ("HPK", 1, CODE_MOST),
    ("age", 0, AGE_MOST),
    ("sex", 1, 2),
    ("weight", 1, WEIGHT_MOST),
    ("surface", 1, SURFACE_MOST),
    ("care group", 2, 3),
    ("reason", 0, CODE_MOST),
    ("ICPCTO", 0, 2),
    ("route", 0, CODE_MOST),
    ("count", 1, COUNT_MOST),
    ("time unit", 0, UNIT_MOST),
    ("lowest", 1, DOSE_MOST),
    ("highest", 1, DOSE_MOST),
    ("entered unit", 0, UNIT_MOST),
    ("base unit", 0, UNIT_MOST),
    ("SRTCDE", 0, UNIT_MOST),
    ("CODE", 0, CODE_MOST),
    ("months", MONTHS_OFF, MONTHS_ON),
    ("quiet", QUIET_OFF, QUIET_ON),
    ("edition", EDITION_1, EDITION_2),
];

pub const GPK: usize = 0;
pub const PRK: usize = 1;
pub const HPK: usize = 2;
pub const AGE: usize = 3;
pub const SEX: usize = 4;
pub const WEIGHT: usize = 5;
pub const SURFACE: usize = 6;
pub const CARE: usize = 7;
pub const REASON: usize = 8;
pub const ICPCTO: usize = 9;
pub const ROUTE: usize = 10;
pub const COUNT: usize = 11;
pub const TIME_UNIT: usize = 12;
pub const LOWEST: usize = 13;
pub const HIGHEST: usize = 14;
pub const ENTERED_UNIT: usize = 15;
pub const BASE_UNIT: usize = 16;
pub const SRTCDE: usize = 17;
pub const CODE: usize = 18;
pub const MONTHS: usize = 19;
pub const QUIET: usize = 20;
pub const EDITION: usize = 21;

/// Not the edition: it has to be given (P7).
pub const MAY_BE_BLANK: [usize; 8] = [PRK, HPK, AGE, SEX, WEIGHT, SURFACE, MONTHS, QUIET];

#[derive(Clone, Copy, Debug)]
pub struct Entry {
    pub numbers: [u32; FIELDS],
    pub gpk: u32,
    pub prk: Option<u32>,
    pub hpk: Option<u32>,
    pub age: Option<u32>,
    pub sex: Option<u32>,
    pub weight: Option<u32>,
    pub surface: Option<u32>,
    pub care: u32,
    pub reason: u32,
    pub icpcto: u32,
    pub route: u32,
    pub count: u32,
    pub time_unit: u32,
    pub lowest: u32,
    pub highest: u32,
    pub entered_unit: u32,
    pub base_unit: u32,
    pub srtcde: u32,
    pub code: u32,
    pub months: Option<u32>,
    pub quiet: Option<u32>,
    pub edition: u32,
}

impl Entry {
    /// The numbers in the order of `RANGES`.
    pub fn new(n: [u32; FIELDS]) -> Entry {
        let given = |place: usize| if n[place] == BLANK { None } else { Some(n[place]) };
        Entry {
            numbers: n,
            gpk: n[GPK],
            prk: given(PRK),
            hpk: given(HPK),
            age: given(AGE),
            sex: given(SEX),
            weight: given(WEIGHT),
            surface: given(SURFACE),
            care: n[CARE],
            reason: n[REASON],
            icpcto: n[ICPCTO],
            route: n[ROUTE],
            count: n[COUNT],
            time_unit: n[TIME_UNIT],
            lowest: n[LOWEST],
            highest: n[HIGHEST],
            entered_unit: n[ENTERED_UNIT],
            base_unit: n[BASE_UNIT],
            srtcde: n[SRTCDE],
            code: n[CODE],
            months: given(MONTHS),
            quiet: given(QUIET),
            edition: n[EDITION],
        }
    }
}

/// 125: each field within its range or, where permitted, blank; then the two rules between fields.
pub fn out_of_range(entry: &Entry) -> Option<Test> {
    for (place, number) in entry.numbers.into_iter().enumerate() {
        if number == BLANK && MAY_BE_BLANK.contains(&place) {
            continue;
        }
        let (_, low, high) = RANGES[place];
        if number < low {
            return Some(Test::Entry(place as u8, Side::Low));
        }
        if number > high {
            return Some(Test::Entry(place as u8, Side::High));
        }
    }
    if entry.reason == 0 && entry.icpcto != 0 {
        return Some(Test::Entry(ICPCTO as u8, Side::Odds));
    }
    if entry.lowest > entry.highest {
        return Some(Test::Entry(LOWEST as u8, Side::Odds));
    }
    None
}
