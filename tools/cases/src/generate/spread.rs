//! Small codes exchanged for great ones whose low 16 bits are all alike.

use super::case::Case;
use second::check::entry::{BLANK, CODE, CODE_MOST, GPK, HPK, PRK, ROUTE};
use second::check::Table::*;

/// Codes up to this are exchanged; 0 keeps its meaning.
const SMALL: u64 = 200;
const STEP: u64 = 1 << 16;

/// One to one, and at most 99,999,999.
fn great(code: u64) -> u64 {
    if (1..=SMALL).contains(&code) {
        CODE_MOST as u64 - (SMALL - code) * STEP
    } else {
        code
    }
}

/// GPK, PRK, HPK, basis, category, rule, route and CODE, wherever they stand.
pub fn spread(case: &mut Case) {
    let columns = [
        (T640, 0),
        (T641, 0),
        (T641, 1),
        (T641, 2),
        (T641, 4),
        (T642, 0),
        (T642, 4),
        (T642, 5),
        (T643, 0),
        (T643, 9),
        (T649, 0),
        (T730, 1),
    ];
    for (table, place) in columns {
        let rows = case.rows(table);
        let width = rows.width();
        rows.cells.chunks_exact_mut(width).for_each(|row| row[place] = great(row[place]));
    }
    for entry in &mut case.entries {
        for place in [GPK, PRK, HPK, ROUTE, CODE] {
            if entry[place] != BLANK {
                entry[place] = great(entry[place] as u64) as u32;
            }
        }
    }
}
