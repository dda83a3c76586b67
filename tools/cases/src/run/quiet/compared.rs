//! What the comparisons of 001, 3.4.2, show where they are reached.

use super::doses::{Comparison, Entered, Rule, ABSOLUTE, MAXIMUM};
use super::{Cut, Missing};
use second::check::{Answer, Why};

/// Where the doses lie, and what 64 bits make of it.
pub fn compared(entered: &Entered, rules: &[Rule]) -> Vec<Missing> {
    let mut all = vec![];
    for rule in rules.iter().filter(|rule| rule.limit(MAXIMUM) > 0) {
        all.push(Missing::Dose(Comparison::Single, entered.lies(Comparison::Single, rule)));
        if entered.is_below(Comparison::Single, rule.limit(MAXIMUM), rule.count) {
            all.push(Missing::Dose(Comparison::Day, entered.lies(Comparison::Day, rule)));
        }
    }
    let days = || {
        let above = |rule: &&Rule| entered.is_below(Comparison::Single, rule.limit(MAXIMUM), rule.count);
        rules.iter().filter(above).map(|rule| entered.sides(Comparison::Day, rule.limit(MAXIMUM), rule.count))
    };
    let beyond = days().any(|(allowed, entered)| allowed.max(entered) > u64::MAX as u128);
    let exact = days().any(|(allowed, entered)| allowed > entered);
    let cut = days().any(|(allowed, entered)| allowed as u64 > entered as u64);
    all.push(Missing::Cut(match (beyond, exact, cut) {
        (false, ..) => Cut::Within64Bits,
        (_, false, true) => Cut::Suppresses,
        (_, true, false) => Cut::Stands,
        _ => Cut::Same,
    }));
    all
}

pub fn suppressed(entered: &Entered, rules: &[Rule], answer: &Answer) -> Vec<Missing> {
    let by: Vec<&Rule> = rules.iter().filter(|rule| entered.is_suppressed_by(rule, MAXIMUM)).collect();
    let mut all = vec![Missing::Rows(rules.len().min(3)), Missing::By(answer.ways.reason)];
    for of in [Comparison::Single, Comparison::Day] {
        let is_rounded = |rule: &&Rule| {
            let (allowed, entered) = entered.sides(of, rule.limit(MAXIMUM), rule.count);
            allowed as f64 <= entered as f64
        };
        all.extend(by.iter().all(is_rounded).then_some(Missing::Rounded(of)));
    }
    let highest = rules.iter().map(|rule| rule.limit(MAXIMUM)).max();
    all.extend(by.iter().all(|rule| Some(rule.limit(MAXIMUM)) < highest).then_some(Missing::HighestStands));
    all.extend(rules.iter().any(|rule| rule.limit(MAXIMUM) == 0).then_some(Missing::BesideNoMaximum));
    all
}

pub fn stands(entered: &Entered, lowest: &Entered, rules: &[Rule], why: Why) -> Vec<Missing> {
    let comparison = if why == Why::SingleDose { Comparison::Single } else { Comparison::Day };
    let below = |of| rules.iter().filter(move |rule| entered.is_below(of, rule.limit(MAXIMUM), rule.count));
    let any = |by: &Entered, column| rules.iter().any(|rule| by.is_suppressed_by(rule, column));
    let count = rules.iter().map(|rule| rule.count).max().unwrap_or(0);
    let is_crossed = below(Comparison::Single).any(|rule| {
        let (allowed, entered) = entered.sides(Comparison::Day, rule.limit(MAXIMUM), count);
        allowed > entered
    });
    let is_apart = why == Why::DayDose && below(Comparison::Day).next().is_some();
    let mut all = vec![];
    all.extend(any(lowest, MAXIMUM).then_some(Missing::LowestSuppresses(comparison)));
    all.extend(any(entered, ABSOLUTE).then_some(Missing::AbsoluteSuppresses));
    all.extend(is_apart.then_some(Missing::Apart));
    all.extend(is_crossed.then_some(Missing::Crossed));
    all
}
