//! The limits of a rule, from table 649, to be shown beside the answer.

use crate::answer::Answer;
use crate::columns::{ABSOLUTE_MAXIMUM, NORM_MAXIMUM, NORM_MINIMUM, RULE};
use crate::sheet::Sheet;
use std::collections::HashMap;

const THOUSAND: u64 = 1000;
const SHOWN: [&str; 3] = [NORM_MINIMUM, NORM_MAXIMUM, ABSOLUTE_MAXIMUM];

/// For each rule the limits of its rows.
pub struct Limits(HashMap<u64, Vec<[u64; SHOWN.len()]>>);

impl Limits {
    pub fn new(table: &Sheet) -> Limits {
        let rule = table.place(RULE);
        let places = SHOWN.map(|name| table.place(name));
        let mut rules: HashMap<u64, Vec<_>> = HashMap::new();
        for row in table.rows() {
            rules.entry(row[rule]).or_default().push(places.map(|place| row[place]));
        }
        Limits(rules)
    }

    /// The limits of the answer's rule in words; rule 0 is none reached.
    pub fn sentence(&self, answer: &Answer, base_unit: u64) -> String {
        if answer.suppressed != 0 {
            // limits were looked at (P4), perhaps those of several rules
            return "limits: no rule was chosen".to_string();
        }
        if answer.rule == 0 {
            return "limits not reached".to_string();
        }
        match self.0.get(&u64::from(answer.rule)).map(Vec::as_slice) {
            Some([limits]) => {
                let parts: Vec<String> = SHOWN
                    .iter()
                    .zip(limits)
                    .map(|(name, &limit)| format!("{name} {}", amount(limit)))
                    .collect();
                format!("limits in unit {base_unit}: {}", parts.join(", "))
            }
            Some(_) => "limits: several rows in 649".to_string(),
            None => "limits: no row in 649".to_string(),
        }
    }
}

/// Thousandths as units; 0 means no such limit.
fn amount(thousandths: u64) -> String {
    if thousandths == 0 {
        return "none".to_string();
    }
    format!("{}.{:03}", thousandths / THOUSAND, thousandths % THOUSAND)
}
