//! A case for a reader.

use crate::generate::case::{Case, Numbers};
use second::check::entry::{BLANK, RANGES};

/// Rows of a table shown before the rest is only counted.
const ROWS_SHOWN: usize = 20;

pub fn tables(case: &Case) -> String {
    let mut out = String::new();
    for rows in &case.tables {
        let names: Vec<&str> = rows.table.fields().iter().map(|field| field.0).collect();
        out += &format!("{} ({})\n", rows.table.number(), names.join(", "));
        for row in rows.cells.chunks_exact(rows.width()).take(ROWS_SHOWN) {
            out += &format!("  {row:?}\n");
        }
        if rows.count() > ROWS_SHOWN {
            out += &format!("  and {} more rows\n", rows.count() - ROWS_SHOWN);
        }
        if !rows.tail.is_empty() {
            out += &format!("  and {} bytes behind the last whole row\n", rows.tail.len());
        }
    }
    out
}

pub fn entry(entry: &Numbers) -> String {
    let field = |((name, _, _), number): (&(&str, u32, u32), &u32)| match *number {
        BLANK => format!("{name} blank"),
        number => format!("{name} {number}"),
    };
    RANGES.iter().zip(entry).map(field).collect::<Vec<_>>().join(", ")
}
