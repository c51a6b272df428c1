//! Requests: totals, prices and prohibitions.
use crate::rule::{scaled, Rule};
use crate::Fault;
use rayon::prelude::*;
use serde_json::Value;
use std::collections::{BTreeMap, HashMap, HashSet};

pub struct Request {
    pub flag: String,
    pub totals: BTreeMap<String, (u32, u32)>,
    usual: u64,
    prices: HashMap<(String, String), u64>,
    forbidden: HashSet<(String, String)>,
}

fn items<'a>(value: &'a Value, name: &str) -> &'a [Value] {
    value.get(name).and_then(Value::as_array).map_or(&[], Vec::as_slice)
}

fn pair(items: &[Value]) -> Result<(String, String), Fault> {
    match items {
        [Value::String(old), Value::String(new), ..] if old != new => Ok((old.clone(), new.clone())),
        _ => Err("a pair is two names".into()),
    }
}

impl Request {
    pub fn of(value: &Value) -> Result<Request, Fault> {
        let flag = value["flag"].as_str().ok_or("a request names a flag")?.to_owned();
        let mut totals = BTreeMap::new();
        for (name, total) in value["totals"].as_object().ok_or("a request has totals")? {
            let limits = match total {
                Value::Array(range) => (range[0].as_u64(), range[1].as_u64()),
                one => (one.as_u64(), one.as_u64()),
            };
            let (Some(low), Some(high)) = limits else { return Err("a total is a number or a range".into()) };
            totals.insert(name.clone(), (u32::try_from(low)?, u32::try_from(high)?));
        }
        let mut prices = HashMap::new();
        for entry in items(value, "prices") {
            let entry = entry.as_array().ok_or("a price is a list")?;
            prices.insert(pair(entry)?, entry[2].as_u64().ok_or("a price is a number")?);
        }
        let forbidden = items(value, "forbid")
            .iter()
            .map(|entry| pair(entry.as_array().ok_or("a pair is a list")?))
            .collect::<Result<_, Fault>>()?;
        Ok(Request { flag, totals, usual: value.get("price").and_then(Value::as_u64).unwrap_or(1), prices, forbidden })
    }

    /// The price of a change from each of the old names to each of the new ones, none where it is forbidden.
    pub fn table(&self, old: &[&str], new: &[&str]) -> Vec<Vec<Option<u64>>> {
        let price = |from: &str, to: &str| {
            let pair = (from.to_owned(), to.to_owned());
            match from == to {
                true => Some(0),
                false if self.forbidden.contains(&pair) => None,
                false => Some(self.prices.get(&pair).copied().unwrap_or(self.usual)),
            }
        };
        old.iter().map(|from| new.iter().map(|to| price(from, to)).collect()).collect()
    }

    pub fn first_forbidden(&self, old: &Rule, new: &Rule) -> Option<u32> {
        let (mut i, mut j, mut point) = (0, 0, 0);
        while !self.forbidden.is_empty() && point < old.total() {
            i += old.ends[i..].partition_point(|end| *end <= point);
            j += new.ends[j..].partition_point(|end| *end <= point);
            let pair = (old.entries[i].0.to_owned(), new.entries[j].0.to_owned());
            if self.forbidden.contains(&pair) {
                return Some(point);
            }
            point = old.ends[i].min(new.ends[j]);
        }
        None
    }

    /// What the change costs the inputs of these hashes: names are numbered, so that no two texts are compared for an input.
    pub fn cost(&self, old: &Rule, new: &Rule, hashes: &[u32]) -> u64 {
        let mut numbers = HashMap::new();
        let mut number = |name| {
            let next = numbers.len() as u32;
            *numbers.entry(name).or_insert(next)
        };
        let from: Vec<u32> = old.entries.iter().map(|entry| number(entry.0)).collect();
        let to: Vec<u32> = new.entries.iter().map(|entry| number(entry.0)).collect();
        let prices: HashMap<(u32, u32), u64> = self
            .prices
            .iter()
            .filter_map(|((old, new), price)| {
                Some(((*numbers.get(old.as_str())?, *numbers.get(new.as_str())?), *price))
            })
            .collect();
        hashes
            .par_iter()
            .map(|hash| {
                let pair =
                    (from[old.entry_at(scaled(old.total(), *hash))], to[new.entry_at(scaled(new.total(), *hash))]);
                if pair.0 == pair.1 {
                    0
                } else {
                    prices.get(&pair).copied().unwrap_or(self.usual)
                }
            })
            .sum()
    }
}
