//! Long tables: 65,535 rows pass, 65,536 do not. Few, for each is more than a megabyte.

use super::case::{Case, MADE_TABLES};
use super::model::model;
use crate::random::Random;
use second::check::entry::{BLANK, GPK, HPK, PRK};
use second::check::fields::ROWS_MOST;
use second::check::Table;

pub const VARIANTS: usize = 15;
/// Made before P5; behind them table 70, full and too long.
const BEFORE_P5: usize = 13;

/// Six full tables, the rows that are needed behind all others; six too long; one full with a byte behind. Then table
/// 70, whose last row fills what the entry does not give.
pub fn heavy(variant: usize, r: &mut Random) -> Case {
    let mut case = model(r);
    let (table, more) = match variant {
        0..BEFORE_P5 => (MADE_TABLES[variant % 6], variant / 6 % 2),
        _ => (Table::T70, variant - BEFORE_P5),
    };
    let rows = ROWS_MOST + more;
    if table == Table::T70 {
        filled_by_last_row(&mut case);
    }
    // Rows that no chain meets.
    let filler: &[u64] = match table {
        Table::T640 => &[77, 1, 0],
        Table::T641 => &[77, 0, 0, 1, 1],
        Table::T642 => &[77, 3, 1, 0, 0, 1],
        Table::T643 => &[77, 0, 0, 1, 1, 0, 0, 0, 0, 1],
        Table::T649 => &[77, 0, 0, 0],
        Table::T730 => &[77, 1, 1, 1],
        Table::T70 => &[77, 1, 1, 1, 1, 1],
    };
    let missing = rows - case.rows(table).count();
    let mut cells = filler.repeat(missing);
    cells.append(&mut case.rows(table).cells);
    case.rows(table).cells = cells;
    if variant == 12 {
        case.rows(table).tail.push(0);
    }
    case
}

/// The entry gives an HPK, and the row what it gave beside it; a PRK that it left blank is looked for in no row.
fn filled_by_last_row(case: &mut Case) {
    let entry = &mut case.entries[0];
    entry[HPK] = if entry[HPK] == BLANK { 1 } else { entry[HPK] };
    let prk = if entry[PRK] == BLANK { 1 } else { entry[PRK] };
    let row = [entry[HPK] as u64, prk as u64, 1, entry[GPK] as u64, 1, 1];
    (entry[PRK], entry[GPK]) = (BLANK, 0);
    case.push(Table::T70, &row);
}
