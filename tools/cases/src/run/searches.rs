//! Wrong searches of a key, one table each: what a program would answer that finds the rows of a key by halving and
//! errs in it. Such a program finds other rows than those of the key; so the right program is asked about a table
//! that has those rows.

use super::answers_of;
use super::cover::searched;
use super::quiet::looked_for;
use crate::generate::case::{Case, Numbers, Rows};
use crate::generate::order::{key_place, keys, Order};
use crate::generate::{self, LONG_CASES};
use second::check::{Answer, Table};

macro_rules! mistakes {
    ($($name:ident,)*) => {
        #[derive(Clone, Copy, PartialEq, Eq, Debug)]
        pub enum Mistake { $($name,)* }

        const ALL: &[Mistake] = &[$(Mistake::$name,)*];
    };
}

mistakes! {
    HalvesAnyOrder,
    FirstPairNotCompared,
    LastPairNotCompared,
    StopsAtFall,
    FirstRowMissed,
    LastRowMissed,
    OneRowFound,
    FirstOfTableMissed,
    LastOfTableMissed,
    OneRowMore,
    NextForAbsent,
}

use Mistake::*;

/// The rows found of a key, from a place to another.
fn halved(keys: &[u64], key: u64) -> (usize, usize) {
    (keys.partition_point(|other| *other < key), keys.partition_point(|other| *other <= key))
}

/// From where and up to where the wrong search sees rows of the key; `None` where it does not err.
fn seen(mistake: Mistake, keys: &[u64], key: u64) -> Option<(usize, usize)> {
    let (from, to) = halved(keys, key);
    let order = Order::of(keys);
    let rises = order == Order::Rises;
    match mistake {
        HalvesAnyOrder if !rises => Some((from, to.max(from))),
        FirstPairNotCompared if order == Order::FallsAtFirst => Some((from, to.max(from))),
        LastPairNotCompared if order == Order::FallsAtLast => Some((from, to.max(from))),
        StopsAtFall => (1..keys.len()).find(|place| keys[place - 1] > keys[*place]).map(|fall| (0, fall)),
        FirstRowMissed if rises && from < to => Some((from + 1, to)),
        LastRowMissed if rises && from < to => Some((from, to - 1)),
        OneRowFound if rises && from < to => Some((from, from + 1)),
        FirstOfTableMissed if rises && from == 0 && to > 0 => Some((1, to)),
        LastOfTableMissed if rises && from < to && to == keys.len() => Some((from, to - 1)),
        OneRowMore if rises && from < to && to < keys.len() => Some((from, to + 1)),
        NextForAbsent if rises && from == to && to < keys.len() => Some((from, halved(keys, keys[from]).1)),
        _ => None,
    }
}

/// The table as the wrong search sees it.
fn wrong(mistake: Mistake, rows: &Rows, key: u64) -> Option<Rows> {
    let keys = keys(rows);
    let (from, to) = seen(mistake, &keys, key)?;
    let takes_others = mistake == OneRowMore || mistake == NextForAbsent;
    let mut wrong = rows.clone();
    wrong.cells.clear();
    for (place, row) in rows.cells.chunks_exact(rows.width()).enumerate() {
        let mut row = row.to_vec();
        let is_seen = (from..to).contains(&place);
        if is_seen && takes_others {
            row[key_place(rows.table)] = key;
        }
        if is_seen || keys[place] != key {
            wrong.push(&row);
        }
    }
    Some(wrong)
}

/// What is searched: a table for the one key of a step, or 649 for the rules of rows per day (P4).
#[derive(Clone, Copy, PartialEq, Eq, Debug)]
pub enum Searched {
    Table(Table),
    PerDay,
}

impl Searched {
    fn table(self) -> Table {
        match self {
            Searched::Table(table) => table,
            Searched::PerDay => Table::T649,
        }
    }

    fn name(self) -> String {
        let for_day = if self == Searched::PerDay { ", for rows per day" } else { "" };
        format!("{}{for_day}", self.table().number())
    }
}

/// What was searched for an answer, each with the key that was looked for.
fn keys_of(case: &Case, answer: &Answer, entry: &Numbers) -> Vec<(Searched, u64)> {
    let one = searched(answer, entry).into_iter().map(|(table, key)| (Searched::Table(table), key));
    one.chain(looked_for(case, answer, entry).into_iter().map(|key| (Searched::PerDay, key))).collect()
}

/// The wrong searches, each with the number of the case that told it.
pub struct Searches {
    pub all: Vec<(Searched, Mistake, Option<u64>)>,
}

impl Searches {
    pub fn new() -> Searches {
        let of = |searched: Searched| ALL.iter().map(move |mistake| (searched, *mistake, None));
        let searched = Table::ALL.map(Searched::Table).into_iter().chain([Searched::PerDay]);
        Searches { all: searched.flat_map(of).collect() }
    }

    pub fn untold(&self) -> Vec<(Searched, Mistake)> {
        self.all.iter().filter(|search| search.2.is_none()).map(|search| (search.0, search.1)).collect()
    }

    /// Tells the wrong searches that answer an entry of the case otherwise.
    pub fn tell(&mut self, case: &Case, number: u64) {
        if self.untold().is_empty() {
            return;
        }
        for (answer, entry) in answers_of(case).iter().zip(&case.entries) {
            for (searched, key) in keys_of(case, answer, entry) {
                let untold =
                    |search: &&mut (Searched, Mistake, Option<u64>)| search.0 == searched && search.2.is_none();
                for (_, mistake, told) in self.all.iter_mut().filter(untold) {
                    let table = searched.table();
                    let Some(rows) = wrong(*mistake, &case.tables[table as usize], key) else { continue };
                    let mut wrong = Case { tables: case.tables.clone(), entries: vec![*entry] };
                    *wrong.rows(table) = rows;
                    if answers_of(&wrong)[0].numbers != answer.numbers {
                        *told = Some(number);
                    }
                }
            }
        }
    }

    pub fn print(&self) {
        for (searched, mistake, told) in &self.all {
            match told {
                Some(number) => println!("{mistake:?} in {}: case {number}", searched.name()),
                None => println!("{mistake:?} in {}: NOT TOLD", searched.name()),
            }
        }
        println!("{} of {} wrong searches told", self.all.len() - self.untold().len(), self.all.len());
    }
}

impl Default for Searches {
    fn default() -> Searches {
        Searches::new()
    }
}

/// Goes over the run's cases, but for the long ones.
pub fn run(seed: u64, cases: u64) -> Searches {
    let mut searches = Searches::new();
    for number in (0..cases).filter(|number| !LONG_CASES.contains(number)) {
        searches.tell(&generate::case(seed, number), number);
    }
    searches
}
