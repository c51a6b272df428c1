//! The command `check`.
use crate::{quoted, Fault};
use serde_json::{Map, Value};
use std::collections::HashSet;
use std::fmt::Write;

/// How many arguments an operator takes, from and to.
fn takes(name: &str) -> Option<(usize, usize)> {
    Some(match name {
        "missing" | "if" | "and" | "or" | "+" | "merge" | "cat" => (0, usize::MAX),
        "var" => (0, 2),
        "*" | "max" | "min" => (1, usize::MAX),
        "!" | "!!" => (1, 1),
        "-" => (1, 2),
        "missing_some" | "==" | "===" | "!=" | "!==" | ">" | ">=" | "%" | "map" | "filter" | "all" | "none"
        | "some" | "in" | "starts_with" | "ends_with" => (2, 2),
        "<" | "<=" | "reduce" | "substr" => (2, 3),
        "sem_ver" => (3, 3),
        _ => return None,
    })
}

fn is_whole(value: &Value) -> bool {
    value.as_i64().is_some_and(|n| n.unsigned_abs() < 1 << 53)
}

/// Whether all numbers are whole and at most so many levels nest.
fn is_value(value: &Value, levels: usize) -> bool {
    match value {
        Value::Number(_) => is_whole(value),
        Value::Array(items) => levels > 0 && items.iter().all(|item| is_value(item, levels - 1)),
        Value::Object(members) => levels > 0 && members.values().all(|member| is_value(member, levels - 1)),
        _ => true,
    }
}

/// Targetings with shared evaluators, and the nodes that are left of the limit.
struct Targeting<'a> {
    evaluators: &'a Map<String, Value>,
    open: HashSet<&'a str>,
    nodes: usize,
}

impl<'a> Targeting<'a> {
    fn takes(&mut self, nodes: usize) -> bool {
        self.nodes = self.nodes.wrapping_sub(nodes);
        self.nodes <= 10_000
    }

    fn bucket(&mut self, bucket: &'a Value, levels: usize) -> bool {
        match bucket.as_array().map(Vec::as_slice) {
            Some([Value::String(_)]) => true,
            Some([Value::String(_), weight]) if weight.as_u64().is_some_and(|weight| weight < 1 << 31) => true,
            Some(items @ ([_] | [_, _])) => self.takes(1) && items.iter().all(|item| self.is_good(item, levels)),
            _ => false,
        }
    }

    fn fractional(&mut self, items: &'a [Value], levels: usize) -> bool {
        let (by, buckets) = match items.split_first() {
            Some((first, rest)) if !first.is_array() => (Some(first), rest),
            _ => (None, items),
        };
        by.map_or(true, |by| self.is_good(by, levels))
            && !buckets.is_empty()
            && buckets.iter().all(|bucket| self.bucket(bucket, levels.wrapping_sub(1)))
    }

    fn operation(&mut self, name: &'a str, argument: &'a Value, levels: usize) -> bool {
        if let ("$ref", Value::String(target)) = (name, argument) {
            let Some(value) = self.evaluators.get(target) else { return false };
            let good = self.open.insert(target) && self.is_good(value, levels);
            self.open.remove(target.as_str());
            return good;
        }
        let one = std::slice::from_ref(argument);
        let items = argument.as_array().map_or(one, Vec::as_slice);
        if levels < 2 || !self.takes(2) {
            return false;
        }
        if name == "fractional" {
            return self.fractional(items, levels - 2);
        }
        takes(name).is_some_and(|(low, high)| low <= items.len() && items.len() <= high)
            && items.iter().all(|item| self.is_good(item, levels - 2))
    }

    fn is_good(&mut self, value: &'a Value, levels: usize) -> bool {
        match value {
            Value::Object(members) if members.len() == 1 => {
                let (name, argument) = members.iter().next().unwrap();
                self.operation(name, argument, levels)
            }
            Value::Object(_) => false,
            Value::Array(items) => {
                levels > 0 && self.takes(1) && items.iter().all(|item| self.is_good(item, levels - 1))
            }
            Value::Number(_) => self.takes(1) && is_whole(value),
            _ => self.takes(1),
        }
    }
}

fn is_flag(flag: &Value, evaluators: &Map<String, Value>) -> bool {
    let Some(variants) = flag["variants"].as_object() else { return false };
    let state = matches!(flag["state"].as_str(), Some("ENABLED" | "DISABLED"));
    let alike = |kind: fn(&Value) -> bool| variants.values().all(kind);
    let kind =
        alike(Value::is_boolean) || alike(Value::is_string) || alike(Value::is_number) || alike(Value::is_object);
    let named = match flag.get("defaultVariant") {
        None | Some(Value::Null) => true,
        Some(name) => name.as_str().is_some_and(|name| variants.contains_key(name)),
    };
    let targeting = match flag.get("targeting") {
        None | Some(Value::Null) => true,
        Some(Value::Object(members)) if members.is_empty() => true,
        Some(value) => {
            value.is_object() && Targeting { evaluators, open: HashSet::new(), nodes: 10_000 }.is_good(value, 100)
        }
    };
    state
        && (1..=64).contains(&variants.len())
        && kind
        && variants.values().all(|value| is_value(value, 100))
        && named
        && targeting
}

pub fn check(document: &Value) -> Result<String, Fault> {
    let flags = document["flags"].as_object().ok_or("a document has flags")?;
    let empty = Map::new();
    let evaluators = document.get("$evaluators").and_then(Value::as_object).unwrap_or(&empty);
    let mut text = String::new();
    for (key, flag) in flags {
        let word = if is_flag(flag, evaluators) { "good" } else { "broken" };
        writeln!(text, "{} {word}", quoted(key))?;
    }
    Ok(text)
}
