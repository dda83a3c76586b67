//! What an HPK may bring, over document 004's products: each way by itself.

use super::*;
use crate::generate::case::Numbers;
use crate::generate::counts::{CountCase, Range};
use crate::generate::proof_table::changed;
use crate::generate::space::{NO_UPPER, Q_GENERAL};
use second::check::entry::*;
use second::check::Table::*;

/// GPK 16004 has the base level alone; of 122858 a PRK, of 111368 an HPK and a PRK have rows of their own. 124575 is
/// for women, and has a row for the PRK that 004 prints in file 730, which is not that of file 070. 53015 has no level.
const ROWS_640: [[u64; 3]; 5] = [[16_004, 3, 0], [122_858, 3, 0], [111_368, 3, 0], [124_575, 2, 0], [53_015, 3, 0]];
const ROWS_641: [[u64; 5]; 8] = [
    [16_004, 0, 0, 1, 1],
    [122_858, 76_686, 0, 2, 2],
    [122_858, 0, 0, 1, 3],
    [111_368, 0, 709_050, 2, 4],
    [111_368, 65_919, 0, 2, 5],
    [111_368, 0, 0, 1, 6],
    [124_575, 79_308, 0, 2, 7],
    [124_575, 0, 0, 1, 8],
];
/// Each has a category and a rule of its number: 2 per day, at most 2,000. Basis 8 has no setting, rule 5 no limits.
const BASES: std::ops::RangeInclusive<u64> = 1..=7;
const WITHOUT_LIMITS: u64 = 5;
/// The categories whose rows have bounds.
const BY_WEIGHT: u64 = 3;
const BY_SURFACE: u64 = 6;

/// HPKs of several rows: the same twice; with other counts; with another PRK; with another GPK; three.
pub const SAME: u32 = 7_000_001;
pub const COUNTS: u32 = 7_000_002;
pub const PRKS: u32 = 7_000_003;
pub const GPKS: u32 = 7_000_004;
pub const THREE: u32 = 7_000_005;
/// Of one row: of a PRK that has rows of its own, and of PRKs that have none.
pub const OF_65919: u32 = 7_000_006;
pub const OF_65920: u32 = 7_000_007;
pub const OF_76687: u32 = 7_000_008;

const MADE_UP: [Row; 16] = [
    [SAME as u64, 76_686, 1, 122_858, 1, 1],
    [SAME as u64, 76_686, 1, 122_858, 1, 1],
    [COUNTS as u64, 76_686, 1, 122_858, 1, 1],
    [COUNTS as u64, 76_686, 2, 122_858, 1, 2],
    [PRKS as u64, 76_686, 1, 122_858, 1, 1],
    [PRKS as u64, 76_687, 1, 122_858, 1, 1],
    [GPKS as u64, 76_686, 1, 122_858, 1, 1],
    [GPKS as u64, 76_686, 1, 16_004, 1, 1],
    [THREE as u64, 5_541, 1, 16_004, 1, 1],
    [THREE as u64, 76_686, 1, 122_858, 1, 1],
    [THREE as u64, 65_919, 1, 111_368, 3, 3],
    [OF_65919 as u64, 65_919, 1, 111_368, 3, 3],
    [OF_65920 as u64, 65_920, 1, 111_368, 3, 3],
    [OF_76687 as u64, 76_687, 1, 122_858, 1, 1],
    [1, CODE_MOST as u64, 0, CODE_MOST as u64, 0, 0],
    [CODE_MOST as u64, 1, 999_999, 16_004, 999_999, 999_999],
];

pub fn tables() -> Case {
    let mut case = Case::empty();
    ROWS_640.iter().for_each(|row| case.push(T640, row));
    ROWS_641.iter().for_each(|row| case.push(T641, row));
    for n in BASES {
        case.push(T642, &[n, 3, Q_GENERAL, 0, 0, n]);
        let weight = if n == BY_WEIGHT { 80_000 } else { NO_UPPER };
        let surface = if n == BY_SURFACE { 1_500 } else { NO_UPPER };
        case.push(T643, &[n, 0, NO_UPPER, 2, 19, 0, weight, 0, surface, n]);
        if n != WITHOUT_LIMITS {
            case.push(T649, &[n, 0, 2_000, 0]);
        }
    }
    // 004: one millilitre is 20 drops.
    [[1, 216_267, 1_000, 233], [1, 216_267, 20_000, 303]].iter().for_each(|row| case.push(T730, row));
    ROWS_004.iter().chain(&MADE_UP).for_each(|row| case.push(T70, row));
    case
}

type Changes = &'static [(usize, u32)];

/// K1 with these codes.
pub struct Asked {
    pub name: &'static str,
    hpk: u32,
    prk: u32,
    gpk: u32,
    changes: Changes,
}

impl Asked {
    pub fn entry(&self) -> Numbers {
        let own = [(HPK, self.hpk), (PRK, self.prk), (GPK, self.gpk)];
        changed(&[&own, self.changes].concat())
    }
}

const fn ask(name: &'static str, hpk: u32, prk: u32, gpk: u32, changes: Changes) -> Asked {
    Asked { name, hpk, prk, gpk, changes }
}

/// Drops, by a code that 730 has, and by one that it has not.
const DROPS: [(usize, u32); 4] = [(ENTERED_UNIT, 303), (SRTCDE, 1), (CODE, 216_267), (HIGHEST, 40_000)];
const NO_DROPS: [(usize, u32); 3] = [(ENTERED_UNIT, 303), (SRTCDE, 1), (CODE, 216_268)];
const QUIETLY: (usize, u32) = (QUIET, QUIET_ON);
const TIMES_3: (usize, u32) = (COUNT, 3);

const ASKED: [Asked; 79] = [
    ask("216267 brings both", 216_267, BLANK, 0, &[]),
    ask("216267 brings the GPK", 216_267, 5_541, 0, &[]),
    ask("216267 brings the PRK", 216_267, BLANK, 16_004, &[]),
    ask("216267 brings nothing", 216_267, 5_541, 16_004, &[]),
    ask("1709925 brings both", 1_709_925, BLANK, 0, &[]),
    ask("1709925 brings the GPK", 1_709_925, 76_686, 0, &[]),
    ask("1709925 brings the PRK", 1_709_925, BLANK, 122_858, &[]),
    ask("1709925 brings nothing", 1_709_925, 76_686, 122_858, &[]),
    ask("HPK blank, GPK alone", BLANK, BLANK, 122_858, &[]),
    ask("HPK blank, PRK and GPK", BLANK, 76_686, 122_858, &[]),
    ask("HPK blank, PRK alone", BLANK, 76_686, 0, &[]),
    ask("all blank", BLANK, BLANK, 0, &[]),
    ask("HPK blank, a PRK and a GPK that no row has together", BLANK, 5_541, 122_858, &[]),
    ask("no row, HPK alone", 1_709_926, BLANK, 0, &[]),
    ask("no row, GPK", 1_709_926, BLANK, 122_858, &[]),
    ask("no row, PRK", 1_709_926, 76_686, 0, &[]),
    ask("no row, both", 1_709_926, 76_686, 122_858, &[]),
    ask("no row: a PRK is no HPK", 76_686, BLANK, 0, &[]),
    ask("no row: a GPK is no HPK", 122_858, BLANK, 0, &[]),
    ask("no row: alike in 16 bits", 216_267 + 65_536, BLANK, 0, &[]),
    ask("another PRK", 1_709_925, 76_687, 122_858, &[]),
    ask("another PRK, GPK 0", 1_709_925, 76_687, 0, &[]),
    ask("another GPK", 1_709_925, 76_686, 122_859, &[]),
    ask("another GPK, PRK blank", 1_709_925, BLANK, 122_859, &[]),
    ask("another PRK and another GPK", 1_709_925, 76_685, 122_857, &[]),
    ask("another product, its own PRK and GPK", 216_267, 76_686, 122_858, &[]),
    ask("the GPK as PRK", 1_709_925, 122_858, 122_858, &[]),
    ask("the PRK as GPK", 1_709_925, 76_686, 76_686, &[]),
    ask("the HPK as PRK", 1_709_925, 1_709_925, 122_858, &[]),
    ask("the count as PRK", 1_709_925, 1, 122_858, &[]),
    ask("the count as GPK", 1_709_925, 76_686, 1, &[]),
    ask("a PRK alike in 16 bits", 1_709_925, 76_686 + 65_536, 122_858, &[]),
    ask("a GPK alike in 16 bits", 1_709_925, 76_686, 122_858 + 65_536, &[]),
    ask("the PRK that file 730 prints", 1_927_043, 79_308, 124_575, &[(SEX, 2)]),
    ask("1927043, sex blank", 1_927_043, BLANK, 0, &[]),
    ask("1927043, sex 1", 1_927_043, BLANK, 0, &[(SEX, 1)]),
    ask("1927043, sex 2", 1_927_043, BLANK, 0, &[(SEX, 2)]),
    ask("GPK 124575, PRK 79308, sex 2", BLANK, 79_308, 124_575, &[(SEX, 2)]),
    ask("709050: the HPK has a row in 641", 709_050, BLANK, 0, &[]),
    ask("GPK 111368, HPK blank", BLANK, 65_919, 111_368, &[]),
    ask("another HPK of PRK 65919", OF_65919, BLANK, 0, &[]),
    ask("an HPK of PRK 65920", OF_65920, BLANK, 0, &[(SURFACE, 1_499)]),
    ask("the same, surface blank", OF_65920, BLANK, 0, &[]),
    ask("the same, surface 1,500", OF_65920, BLANK, 0, &[(SURFACE, 1_500)]),
    ask("an HPK of PRK 76687", OF_76687, BLANK, 0, &[]),
    ask("the same, weight blank", OF_76687, BLANK, 0, &[(WEIGHT, BLANK)]),
    ask("the same, weight 80,000", OF_76687, BLANK, 0, &[(WEIGHT, 80_000)]),
    ask("551805: no level", 551_805, BLANK, 0, &[]),
    ask("HPK 1: the greatest codes", 1, BLANK, 0, &[]),
    ask("HPK 99,999,999: PRK 1", CODE_MOST, BLANK, 0, &[]),
    ask("the same row twice", SAME, BLANK, 0, &[]),
    ask("the same row twice, what it says is given", SAME, 76_686, 122_858, &[]),
    ask("the same row twice, another PRK", SAME, 76_687, 122_858, &[]),
    ask("the same row twice, another GPK", SAME, BLANK, 16_004, &[]),
    ask("two rows of other counts", COUNTS, BLANK, 122_858, &[]),
    ask("two rows of other PRKs", PRKS, BLANK, 122_858, &[]),
    ask("two rows of other PRKs, the first is given", PRKS, 76_686, 0, &[]),
    ask("two rows of other PRKs, the last is given", PRKS, 76_687, 0, &[]),
    ask("two rows of other GPKs, the first is given", GPKS, BLANK, 122_858, &[]),
    ask("two rows of other GPKs, the last is given", GPKS, BLANK, 16_004, &[]),
    ask("three rows", THREE, BLANK, 0, &[]),
    ask("three rows, another PRK and another GPK", THREE, 1, 1, &[]),
    ask("age blank", 216_267, BLANK, 0, &[(AGE, BLANK)]),
    ask("2 to 40 drops, of which 20 are a millilitre", 216_267, BLANK, 0, &DROPS),
    ask("no unit", 216_267, BLANK, 0, &NO_DROPS),
    ask("no unit, another PRK", 216_267, 5_542, 0, &NO_DROPS),
    ask("no unit, another GPK", 216_267, BLANK, 16_005, &NO_DROPS),
    ask("no unit, several rows", SAME, BLANK, 0, &NO_DROPS),
    ask("no unit, no row", 1_709_926, BLANK, 0, &NO_DROPS),
    ask("HPK 0", 0, BLANK, 16_004, &[]),
    ask("PRK 0", 216_267, 0, 16_004, &[]),
    ask("GPK 100,000,000", 216_267, BLANK, CODE_MOST + 1, &[]),
    ask("another PRK, age 1,801", 1_709_925, 76_687, 0, &[(AGE, 1_801)]),
    ask("several rows, care group 4", SAME, BLANK, 0, &[(CARE, 4)]),
    ask("for 3", 216_267, BLANK, 0, &[TIMES_3]),
    ask("for 3 quietly", 216_267, BLANK, 0, &[TIMES_3, QUIETLY, (LOWEST, 1_000), (HIGHEST, 1_000)]),
    ask("for 3 quietly, another PRK", 216_267, 5_542, 0, &[TIMES_3, QUIETLY]),
    ask("for 3 quietly, weight blank", OF_76687, BLANK, 0, &[TIMES_3, QUIETLY, (WEIGHT, BLANK)]),
    ask("for 3 quietly, surface blank", OF_65920, BLANK, 0, &[TIMES_3, QUIETLY]),
];

/// What is asked.
pub fn asked() -> &'static [Asked] {
    &ASKED
}

/// All that is asked.
pub fn each() -> Case {
    let mut case = tables();
    case.entries = ASKED.iter().map(Asked::entry).collect();
    case
}

/// What is also asked for a range.
const RANGED: [&str; 13] = [
    "216267 brings both",
    "1709925 brings the GPK",
    "1709925 brings the PRK",
    "1709925 brings nothing",
    "HPK blank, GPK alone",
    "no row, GPK",
    "no row, PRK",
    "another PRK, GPK 0",
    "another GPK, PRK blank",
    "another PRK and another GPK",
    "the same row twice",
    "709050: the HPK has a row in 641",
    "for 3 quietly",
];
/// First, last and places: the count of the rows between others; first, behind 0, alone; 131 and 132.
const RANGES: [[u32; 3]; 6] = [[1, 3, 3], [2, 3, 3], [0, 2, 64], [2, 2, 1], [3, 2, 64], [1, 3, 2]];

/// What is asked for other ranges too.
const RANGED_OTHERWISE: [&str; 3] = ["216267 brings both", "another PRK, GPK 0", "the same row twice"];

/// What is also asked for a range, for 1 to 3; some of it for others.
pub fn ranges() -> CountCase {
    let mut made = CountCase { case: tables(), ranges: vec![] };
    let mut push = |asked: &Asked, [first, last, places]: [u32; 3]| {
        made.case.entries.push(asked.entry());
        made.ranges.push(Range { first, last, places });
    };
    let named = |names: &'static [&str]| ASKED.iter().filter(|asked| names.contains(&asked.name));
    named(&RANGED).for_each(|asked| push(asked, RANGES[0]));
    for range in &RANGES[1..] {
        named(&RANGED_OTHERWISE).for_each(|asked| push(asked, *range));
    }
    made
}
