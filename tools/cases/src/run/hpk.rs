//! Document 02, P5: what came of an entry's HPK, and what stands before and behind it.

use super::answers_of;
use super::cover::tests;
use crate::generate::case::{Case, Numbers};
use crate::generate::hpk::{rows_of, Row, GPKODE, PRKODE};
use second::check::entry::{BLANK, CODE_MOST, GPK, HPK, PRK};
use second::check::{Answer, Code, Filling, Level, Table, Test};

/// How the several rows of an HPK differ from each other.
#[derive(Clone, Copy, PartialEq, Eq, PartialOrd, Ord, Debug)]
pub enum Differ {
    Not,
    InCounts,
    InPrk,
    InGpk,
    InBoth,
}

/// From which of its several rows an entry differs, so that one row of them alone would be 133.
#[derive(Clone, Copy, PartialEq, Eq, PartialOrd, Ord, Debug)]
pub enum From {
    None,
    FirstAlone,
    LastAlone,
    All,
}

/// What an entry says of its HPK, where table 70 is refused.
#[derive(Clone, Copy, PartialEq, Eq, PartialOrd, Ord, Debug)]
pub enum Says {
    Blank,
    NoRow,
    OneRow,
    OtherThanRow,
    SeveralRows,
}

/// What is counted of an HPK.
#[derive(Clone, Copy, PartialEq, Eq, PartialOrd, Ord, Debug)]
pub enum Brought {
    /// What came of it, and whether table 70 has rows.
    Came(Filling, bool),
    /// 123: how the rows differ from each other
    Several(Differ),
    /// 123 before 133
    SeveralBefore133(From),
    ThreeRows,
    /// 133: by one code, where the other is not given, or is the row's
    OtherBlank(Code),
    OtherSame(Code),
    /// 123 or 133 where without table 70 this answer of this table would be given
    Before(u32, u32, u32),
    /// Something was filled, and this test gave the answer.
    Then(Test),
    /// Something was filled, and without it the answer were 104 or 110.
    InsteadOf(u32),
    /// The PRK was filled, and the level found.
    Level(Level),
    /// Filled with 1 or with 99,999,999.
    Least(Code),
    Greatest(Code),
    /// 121 or 122 of table 70
    Refused(u32, Says),
}

fn other_than(entry: &Numbers, row: &Row) -> bool {
    let [prk, gpk] = [entry[PRK], entry[GPK]].map(u64::from);
    prk != BLANK as u64 && prk != row[PRKODE] || gpk != 0 && gpk != row[GPKODE]
}

/// What is seen of the answer to an entry.
pub fn brought(case: &Case, answer: &Answer, entry: &Numbers) -> Vec<Brought> {
    let rows = if entry[HPK] == BLANK { vec![] } else { rows_of(case, entry[HPK] as u64) };
    match answer.test {
        Test::Shape(Table::T70, _) | Test::Range(Table::T70, ..) => {
            vec![Brought::Refused(answer.numbers[0], says(&rows, entry))]
        }
        Test::FillingSeveral => [several(&rows, entry), before(case, answer, entry)].concat(),
        Test::FillingDiffers(code) => [differs(code, entry), before(case, answer, entry)].concat(),
        _ => answer.filled.map_or(vec![], |filled| {
            let has_rows = case.tables[Table::T70 as usize].count() > 0;
            let mut all = vec![Brought::Came(filled.filling, has_rows)];
            if let Filling::Some(code) = filled.filling {
                all.extend(then(case, answer, entry, &filled.entry.numbers, code));
            }
            all
        }),
    }
}

fn says(rows: &[Row], entry: &Numbers) -> Says {
    match rows {
        _ if entry[HPK] == BLANK => Says::Blank,
        [] => Says::NoRow,
        [row] if other_than(entry, row) => Says::OtherThanRow,
        [_] => Says::OneRow,
        _ => Says::SeveralRows,
    }
}

fn several(rows: &[Row], entry: &Numbers) -> Vec<Brought> {
    let first = rows[0];
    let differ = |place: usize| rows.iter().any(|row| row[place] != first[place]);
    let differ = match (differ(PRKODE), differ(GPKODE)) {
        (true, true) => Differ::InBoth,
        (true, false) => Differ::InPrk,
        (false, true) => Differ::InGpk,
        _ if rows.iter().any(|row| *row != first) => Differ::InCounts,
        _ => Differ::Not,
    };
    let others: Vec<bool> = rows.iter().map(|row| other_than(entry, row)).collect();
    let from = match others[..] {
        _ if others.iter().all(|other| *other) => Some(From::All),
        _ if !others.contains(&true) => Some(From::None),
        [true, false] => Some(From::FirstAlone),
        [false, true] => Some(From::LastAlone),
        _ => None,
    };
    let mut all = vec![Brought::Several(differ)];
    all.extend(from.map(Brought::SeveralBefore133));
    all.extend((rows.len() > 2).then_some(Brought::ThreeRows));
    all
}

fn differs(code: Code, entry: &Numbers) -> Vec<Brought> {
    let blank = match code {
        Code::Prk => entry[GPK] == 0,
        Code::Gpk => entry[PRK] == BLANK,
        Code::Both => return vec![],
    };
    vec![if blank { Brought::OtherBlank(code) } else { Brought::OtherSame(code) }]
}

/// The answer without table 70.
fn without(case: &Case, entry: &Numbers) -> Answer {
    let mut without = Case { tables: case.tables.clone(), entries: vec![*entry] };
    without.rows(Table::T70).cells.clear();
    answers_of(&without)[0]
}

fn before(case: &Case, answer: &Answer, entry: &Numbers) -> Vec<Brought> {
    let [other, _, table, ..] = without(case, entry).numbers;
    vec![Brought::Before(answer.numbers[0], other, table)]
}

fn then(case: &Case, answer: &Answer, entry: &Numbers, filled: &Numbers, code: Code) -> Vec<Brought> {
    let mut all = vec![Brought::Then(answer.test)];
    let other = without(case, entry).numbers[0];
    all.extend([104, 110].contains(&other).then_some(Brought::InsteadOf(other)));
    let level = answer.ways.level;
    all.extend((code != Code::Gpk && level != Level::NotReached).then_some(Brought::Level(level)));
    for (of, place) in [(Code::Prk, PRK), (Code::Gpk, GPK)] {
        let is_filled = code == of || code == Code::Both;
        all.extend((is_filled && filled[place] == 1).then_some(Brought::Least(of)));
        all.extend((is_filled && filled[place] == CODE_MOST).then_some(Brought::Greatest(of)));
    }
    all
}

/// What 123 of table 70 and 133 stand before, each with its table: steps 2 to 5, and a comparison.
const BEHIND: [(u32, u32); 11] = [
    (126, 730),
    (123, 730),
    (127, 730),
    (128, 730),
    (110, 0),
    (111, 0),
    (123, 640),
    (101, 0),
    (102, 0),
    (104, 0),
    (100, 0),
];

/// Tests that cannot give the answer once something was filled: HPK, PRK and GPK are there.
const NOT_THEN: [Test; 3] = [Test::NoGpk, Test::HpkMissing, Test::PrkMissing];

/// All that can occur.
pub fn required() -> Vec<Brought> {
    let mut all = vec![];
    for has_rows in [true, false] {
        all.extend([Filling::HpkBlank, Filling::NoRow].map(|filling| Brought::Came(filling, has_rows)));
    }
    all.push(Brought::Came(Filling::Nothing, true));
    all.extend([Code::Prk, Code::Gpk, Code::Both].map(|code| Brought::Came(Filling::Some(code), true)));
    use Differ::*;
    all.extend([Not, InCounts, InPrk, InGpk, InBoth].map(Brought::Several));
    all.extend([From::None, From::FirstAlone, From::LastAlone, From::All].map(Brought::SeveralBefore133));
    all.push(Brought::ThreeRows);
    for code in [Code::Prk, Code::Gpk] {
        all.extend([
            Brought::OtherBlank(code),
            Brought::OtherSame(code),
            Brought::Least(code),
            Brought::Greatest(code),
        ]);
    }
    for answer in [123, 133] {
        all.extend(BEHIND.map(|(behind, table)| Brought::Before(answer, behind, table)));
    }
    let behind = tests().into_iter().filter(|test| *test >= Test::BaseUnitAbsent && !NOT_THEN.contains(test));
    all.extend(behind.map(Brought::Then));
    all.extend([104, 110].map(Brought::InsteadOf));
    use Level::*;
    all.extend([Level::Hpk, Prk, PrkAfterHpk, Base, BaseAfterHpk, BaseAfterPrk, BaseAfterBoth].map(Brought::Level));
    for answer in [121, 122] {
        use Says::*;
        all.extend([Blank, NoRow, OneRow, OtherThanRow, SeveralRows].map(|says| Brought::Refused(answer, says)));
    }
    all
}
