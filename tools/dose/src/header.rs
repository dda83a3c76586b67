//! The first line of a CSV file against document 01's fields in their order.

use crate::columns::Column;

/// What is wrong with the header, each fault with the names and positions concerned; nothing if it is right.
/// `first` is the position of the first column, counted from 1.
pub fn faults(columns: &[Column], found: &[&str], first: usize) -> Vec<String> {
    let is_due = |column: &&Column| !column.may_be_absent() || found.contains(&column.name);
    let header = Header { columns, due: columns.iter().filter(is_due).collect(), found, first };
    let mut faults = header.missing();
    faults.extend(header.extra());
    faults.extend(header.twice());
    if faults.is_empty() {
        faults = header.exchanged();
    }
    if !faults.is_empty() && found.len() == 1 && found[0].contains(';') {
        faults.push("the header has semicolons: columns must be separated by commas".to_string());
    }
    faults
}

struct Header<'a> {
    columns: &'a [Column],
    /// All columns but those that may be absent and are.
    due: Vec<&'a Column>,
    found: &'a [&'a str],
    first: usize,
}

impl Header<'_> {
    /// Says what stands where the column of this place must be.
    fn expected(&self, place: usize) -> String {
        let position = place + self.first;
        let name = self.due[place].name;
        match self.found.get(place) {
            Some(&"") => format!("column {position} must be {name}, but has no name"),
            Some(other) => format!("column {position} must be {name}, but {other} stands there"),
            None => format!("column {position} must be {name}, but the header ends before it"),
        }
    }

    fn missing(&self) -> Vec<String> {
        let is_absent = |&place: &usize| !self.found.contains(&self.due[place].name);
        let say = |place: usize| format!("{} is missing: {}", self.due[place].name, self.expected(place));
        (0..self.due.len()).filter(is_absent).map(say).collect()
    }

    fn extra(&self) -> Vec<String> {
        let mut faults = Vec::new();
        for (place, &name) in self.found.iter().enumerate() {
            if self.columns.iter().any(|column| column.name == name) {
                continue;
            }
            let shown = if name.is_empty() { "a column without a name" } else { name };
            faults.push(format!("{shown} is extra: {}", self.allowed(place)));
        }
        faults
    }

    /// Says what may stand at this place.
    fn allowed(&self, place: usize) -> String {
        let position = place + self.first;
        let absent = self.columns.iter().skip(place).filter(|column| !self.found.contains(&column.name));
        let absent: Vec<&str> = absent.map(|column| column.name).collect();
        match self.due.get(place) {
            Some(column) if !column.may_be_absent() => format!("column {position} must be {}", column.name),
            _ if !absent.is_empty() => format!("column {position} may only be {}", absent.join(" or ")),
            Some(column) => format!("column {position} must be {}", column.name),
            None => format!("there must be no column {position}"),
        }
    }

    fn twice(&self) -> Vec<String> {
        let mut faults = Vec::new();
        for (place, name) in self.found.iter().enumerate() {
            if let Some(before) = self.found[..place].iter().position(|other| other == name) {
                let (one, other) = (before + self.first, place + self.first);
                faults
                    .push(format!("{name} is extra: it stands in column {one} and again in column {other}"));
            }
        }
        faults
    }

    /// Where no column is missing, extra or twice.
    fn exchanged(&self) -> Vec<String> {
        let differs = |&place: &usize| self.found[place] != self.due[place].name;
        let say = |place| format!("columns are exchanged: {}", self.expected(place));
        (0..self.due.len()).filter(differs).map(say).collect()
    }
}
