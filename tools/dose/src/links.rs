//! Table 70, which PRK and GPK an HPK has (document 02, P5): what it says of the HPK of an entry.

use crate::answer::Answer;
use crate::columns::{GPK, GPKODE, HPK, HPKODE, PRK, PRKODE};
use crate::number::BLANK;
use crate::sheet::Sheet;
use crate::words;
use std::collections::HashMap;

/// GPK 0 is none.
const NO_GPK: u64 = 0;

/// For each HPK the PRK and the GPK of its rows.
pub struct Links(HashMap<u64, Vec<[u64; 2]>>);

/// What the table says of the HPK of an entry.
pub enum Said {
    /// The HPK is blank.
    Nothing,
    NoRow {
        hpk: u64,
    },
    Several {
        hpk: u64,
        rows: usize,
    },
    One(One),
}

/// The one row of an HPK against what the entry gives.
pub struct One {
    pub hpk: u64,
    pub prk: Code,
    pub gpk: Code,
}

pub enum Code {
    /// The entry gives none, and the row has this.
    Brought(u64),
    Same,
    Differs {
        given: u64,
        has: u64,
    },
}

impl Links {
    pub fn new(table: &Sheet) -> Links {
        let [hpk, prk, gpk] = [HPKODE, PRKODE, GPKODE].map(|name| table.place(name));
        let mut links: HashMap<u64, Vec<_>> = HashMap::new();
        for row in table.rows() {
            links.entry(row[hpk]).or_default().push([row[prk], row[gpk]]);
        }
        Links(links)
    }

    pub fn of(&self, entries: &Sheet, row: usize) -> Said {
        let [hpk, prk, gpk] = [HPK, PRK, GPK].map(|name| entries.row(row)[entries.place(name)]);
        if hpk == BLANK {
            return Said::Nothing;
        }
        match self.0.get(&hpk).map_or(&[][..], Vec::as_slice) {
            [] => Said::NoRow { hpk },
            [[has_prk, has_gpk]] => {
                let (prk, gpk) = (code(prk, BLANK, *has_prk), code(gpk, NO_GPK, *has_gpk));
                Said::One(One { hpk, prk, gpk })
            }
            rows => Said::Several { hpk, rows: rows.len() },
        }
    }
}

fn code(given: u64, none: u64, has: u64) -> Code {
    match given {
        given if given == none => Code::Brought(has),
        given if given == has => Code::Same,
        given => Code::Differs { given, has },
    }
}

impl Said {
    /// Why the answer cannot be one for this entry and this table, if so.
    pub fn contradicts(&self, answer: &Answer) -> Option<&'static str> {
        if words::BEFORE_LINKS.contains(&answer.answer) {
            return None;
        }
        let is_several = [answer.answer, answer.table] == [words::SEVERAL, words::LINKS];
        let differs = answer.answer == words::OTHER_THAN_HPK;
        match self {
            Said::Several { .. } if is_several => None,
            Said::Several { .. } => Some("070 has several rows for the entry's HPK, which is 123"),
            Said::One(one) if one.differs() && differs => None,
            Said::One(one) if one.differs() => {
                Some("the entry's PRK or GPK is not that of its HPK, which is 133")
            }
            Said::One(one) if one.is_asked(answer) => Some("it asks for what 070 has for the entry's HPK"),
            _ if is_several => Some("070 has not several rows for the entry's HPK"),
            _ if differs => Some("the entry's PRK and GPK do not differ from a row of its HPK in 070"),
            _ => None,
        }
    }

    /// The PRK and the GPK that the HPK brought, where the check came so far.
    pub fn brought(&self, answer: &Answer) -> [Option<u64>; 2] {
        let of = |code: &Code| match code {
            Code::Brought(code) => Some(*code),
            _ => None,
        };
        match self {
            Said::One(one) if !words::BEFORE_LINKS.contains(&answer.answer) && !one.differs() => {
                [of(&one.prk), of(&one.gpk)]
            }
            _ => [None, None],
        }
    }

    /// What there is to say of the HPK beside the answer.
    pub fn sentence(&self, answer: &Answer) -> Option<String> {
        match self {
            Said::Several { hpk, rows }
                if [answer.answer, answer.table] == [words::SEVERAL, words::LINKS] =>
            {
                Some(format!("070 has {rows} rows for HPK {hpk}, so that its PRK and GPK cannot be told"))
            }
            Said::NoRow { hpk } if words::ASKS_FOR_CODE.contains(&answer.answer) => {
                Some(format!("070 has no row for HPK {hpk} to bring it"))
            }
            Said::One(one) if answer.answer == words::OTHER_THAN_HPK => Some(one.difference()),
            Said::One(one) => {
                let brought = listed(self.brought(answer));
                (!brought.is_empty()).then(|| format!("HPK {} brought {brought}", one.hpk))
            }
            _ => None,
        }
    }
}

impl One {
    fn differs(&self) -> bool {
        [&self.prk, &self.gpk].iter().any(|code| matches!(code, Code::Differs { .. }))
    }

    /// 104 where the PRK is brought, 110 wherever there is a row.
    fn is_asked(&self, answer: &Answer) -> bool {
        let prk = matches!(self.prk, Code::Brought(_)) && answer.answer == words::PRK_MISSING;
        prk || answer.answer == words::NO_GPK
    }

    /// Which number was given, and which the file has.
    fn difference(&self) -> String {
        let pick = |of: fn(u64, u64) -> u64| {
            [&self.prk, &self.gpk].map(|code| match code {
                Code::Differs { given, has } => Some(of(*given, *has)),
                _ => None,
            })
        };
        let (given, has) = (listed(pick(|given, _| given)), listed(pick(|_, has| has)));
        format!("HPK {} was given with {given}, and 070 has {has} for it", self.hpk)
    }
}

/// `PRK 5541 and GPK 16004`, or one of them.
fn listed(codes: [Option<u64>; 2]) -> String {
    let named = [PRK, GPK].into_iter().zip(codes);
    named.filter_map(|(name, code)| Some(format!("{name} {}", code?))).collect::<Vec<_>>().join(" and ")
}
