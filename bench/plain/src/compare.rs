//! The command `compare`, of books of one flag's first page.
use crate::book;
use crate::rule::{scaled, Rule};
use crate::Fault;
use serde_json::Value;
use std::collections::BTreeMap;

fn fractional<'a>(document: &'a Value, flag: &str) -> Result<Rule<'a>, Fault> {
    Rule::seen(&document["flags"][flag]["targeting"]["fractional"])
}

fn quoted(text: &str) -> String {
    Value::from(text).to_string()
}

/// How many inputs each rule gives another name, by the pair of names.
pub fn compare(old: &Value, new: &Value, flag: &str, book: &str) -> Result<String, Fault> {
    let (before, after) = (fractional(old, flag)?, fractional(new, flag)?);
    let hashes = book::hashes(book, flag)?;
    let mut pairs = vec![0u64; before.entries.len() * after.entries.len()];
    for hash in &hashes {
        let from = before.entry_at(scaled(before.total(), *hash));
        let to = after.entry_at(scaled(after.total(), *hash));
        pairs[from * after.entries.len() + to] += 1;
    }
    let mut switches: BTreeMap<(&str, &str), u64> = BTreeMap::new();
    for (place, count) in pairs.iter().enumerate().filter(|(_, count)| **count > 0) {
        let (from, to) = (before.entries[place / after.entries.len()].0, after.entries[place % after.entries.len()].0);
        if from != to {
            *switches.entry((from, to)).or_insert(0) += count;
        }
    }
    let (inputs, switched) = (hashes.len(), switches.values().sum::<u64>());
    let mut text = format!("{} 0 inputs {inputs} switch {switched}\n", quoted(flag));
    for ((from, to), count) in &switches {
        text += &format!("  {} {} {count}\n", quoted(from), quoted(to));
    }
    Ok(text + &format!("switch {switched} of {inputs}\n"))
}
