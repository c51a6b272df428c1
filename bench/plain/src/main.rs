//! The commands `bucket`, `price`, `check`, `compare`, `plan`, `verify`, `record`, `tally` and `ofrep` of `flagops` in plain Rust, unproved:
//! what the proved program is timed beside; and `rates`, beside which the library is. It knows the files that the scripts of `bench/` make,
//! and stops with a message at any other.
mod book;
mod check;
mod compare;
mod flow;
mod ofrep;
mod plan;
mod rates;
mod records;
mod request;
mod rule;

use rayon::prelude::*;
use rule::Rule;
use serde_json::Value;

/// What stops the program.
type Fault = Box<dyn std::error::Error>;

fn load(path: &str) -> Result<Value, Fault> {
    Ok(serde_json::from_slice(&std::fs::read(path)?)?)
}

/// The value as JSON, without blanks.
fn quoted(text: &str) -> String {
    Value::from(text).to_string()
}

fn bucket(path: &str, key: &str) -> Result<String, Fault> {
    let rule = std::fs::read(path)?;
    let rule = Rule::read(&rule)?;
    let point = rule.point(key);
    let name = quoted(rule.name_at(point));
    Ok(format!("hash {:08x}\npoint {point}\nvariant {name}\n", rule::hash(key.as_bytes())))
}

fn price(old: &str, new: &str, request: &str, keys: &str) -> Result<String, Fault> {
    let (old, new) = (std::fs::read(old)?, std::fs::read(new)?);
    let (old, new) = (Rule::read(&old)?, Rule::read(&new)?);
    let request = request::Request::of(&load(request)?)?;
    let keys = std::fs::read(keys)?;
    let mut keys: Vec<&str> = serde_json::from_slice(&keys)?;
    keys.sort_unstable();
    keys.dedup();
    let hashes: Vec<u32> = keys.par_iter().map(|key| rule::hash(key.as_bytes())).collect();
    let mut totals = std::collections::BTreeMap::new();
    for (name, weight) in &new.entries {
        *totals.entry(*name).or_insert(0u64) += u64::from(*weight);
    }
    let mut text = String::new();
    for (name, total) in totals {
        text += &format!("total {} {total}\n", quoted(name));
    }
    match request.first_forbidden(&old, &new) {
        Some(point) => text += &format!("forbidden {point}\n"),
        None => text += "forbidden none\n",
    }
    text += &format!("cost {}\n", request.cost(&old, &new, &hashes));
    Ok(text)
}

fn run(words: &[&str]) -> Result<String, Fault> {
    match words {
        ["--version"] => Ok("plain\n".into()),
        ["bucket", rule, key] => bucket(rule, key),
        ["price", old, new, request, keys] => price(old, new, request, keys),
        ["check", document] => check::check(&load(document)?),
        ["compare", old, new, book, "--flag", flag] => compare::compare(&load(old)?, &load(new)?, flag, book),
        ["plan", document, request, book] => plan::plan(&load(document)?, &load(request)?, book),
        ["verify", document, request, book, plan] => {
            plan::verify(&load(document)?, &load(request)?, book, &load(plan)?)
        }
        ["record", document, flag] => records::record(&load(document)?, flag).map(|()| String::new()),
        ["tally", document, flag, "0"] => records::tally(&load(document)?, flag).map(|()| String::new()),
        ["ofrep", address, workers, document, log @ ..] => {
            ofrep::serve(address, workers.parse()?, log.first().copied(), &load(document)?)
        }
        ["rates", document, key, seconds] => rates::rates(&load(document)?, key, seconds.parse()?),
        _ => Err("no such command".into()),
    }
}

fn main() {
    let words: Vec<String> = std::env::args().skip(1).collect();
    let words: Vec<&str> = words.iter().map(String::as_str).collect();
    match run(&words) {
        Ok(text) => print!("{text}"),
        Err(fault) => {
            eprintln!("plain: {fault}");
            std::process::exit(1)
        }
    }
}
