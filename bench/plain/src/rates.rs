//! Resolutions in one process, as the library makes them: a key, a kind, a default as JSON, a context that was read once or is read each
//! time, and a room that the value as JSON and the variant's name are written into. `rates DOCUMENT KEY SECONDS` counts them for a second of
//! a processor, first of a targeting that was compiled, then of one that is walked as the JSON value that it is.
use crate::ofrep::{self, Flags};
use crate::rule::{hash, scaled};
use crate::Fault;
use serde_json::{Map, Value};
use std::collections::HashMap;
use std::hint::black_box;
use std::io::Write;

/// A targeting, compiled once.
enum Rule {
    Null,
    Text(String),
    Bool(bool),
    Var(Vec<String>),
    If(Vec<Rule>),
    EndsWith(Box<[Rule; 2]>),
    AtLeast(Box<Rule>, Vec<u64>),
    Fractional(Vec<(String, u32)>, u32),
}

impl Rule {
    /// The targeting of a value, in which a `$ref` stands for what it names.
    fn of(value: &Value, named: &Map<String, Value>) -> Option<Rule> {
        let members = match value {
            Value::Null => return Some(Rule::Null),
            Value::Bool(it) => return Some(Rule::Bool(*it)),
            Value::String(it) => return Some(Rule::Text(it.clone())),
            _ => value.as_object()?,
        };
        let (operator, given) = members.iter().next()?;
        match operator.as_str() {
            "$ref" => Rule::of(named.get(given.as_str()?)?, named),
            "var" => Some(Rule::Var(given.as_str()?.split('.').map(String::from).collect())),
            "if" => Some(Rule::If(given.as_array()?.iter().map(|it| Rule::of(it, named)).collect::<Option<_>>()?)),
            "ends_with" => Some(Rule::EndsWith(Box::new([Rule::of(&given[0], named)?, Rule::of(&given[1], named)?]))),
            "sem_ver" => Some(Rule::AtLeast(Box::new(Rule::of(&given[0], named)?), numbers(given[2].as_str()?))),
            "fractional" => {
                let entries = given.as_array()?.iter().map(|it| Some((it[0].as_str()?.into(), it[1].as_u64()? as u32)));
                let entries: Vec<(String, u32)> = entries.collect::<Option<_>>()?;
                let total = entries.iter().map(|it| it.1).sum();
                Some(Rule::Fractional(entries, total))
            }
            _ => None,
        }
    }

    /// What it comes to for a flag's key in a context.
    fn value<'a>(&'a self, key: &str, context: &'a Value) -> Found<'a> {
        match self {
            Rule::Null => Found::Other,
            Rule::Text(it) => Found::Text(it),
            Rule::Bool(it) => Found::Bool(*it),
            Rule::Var(path) => match path.iter().fold(context, |value, name| &value[name.as_str()]) {
                Value::String(it) => Found::Text(it),
                Value::Bool(it) => Found::Bool(*it),
                _ => Found::Other,
            },
            Rule::If(parts) => branch(parts, key, context),
            Rule::EndsWith(both) => match (both[0].value(key, context), both[1].value(key, context)) {
                (Found::Text(text), Found::Text(end)) => Found::Bool(text.ends_with(end)),
                _ => Found::Bool(false),
            },
            Rule::AtLeast(ours, theirs) => match ours.value(key, context) {
                Found::Text(text) => Found::Bool(numbers(text) >= *theirs),
                _ => Found::Bool(false),
            },
            Rule::Fractional(entries, total) => bucket(entries, *total, key, context),
        }
    }
}

#[derive(Clone, Copy)]
enum Found<'a> {
    Text(&'a str),
    Bool(bool),
    Other,
}

fn numbers(version: &str) -> Vec<u64> {
    version.split('.').filter_map(|part| part.parse().ok()).collect()
}

fn branch<'a>(parts: &'a [Rule], key: &str, context: &'a Value) -> Found<'a> {
    for pair in parts.chunks(2) {
        match pair {
            [condition, then] => match condition.value(key, context) {
                Found::Other | Found::Bool(false) | Found::Text("") => {}
                _ => return then.value(key, context),
            },
            rest => return rest[0].value(key, context),
        }
    }
    Found::Other
}

fn bucket<'a>(entries: &'a [(String, u32)], total: u32, key: &str, context: &Value) -> Found<'a> {
    let Some(user) = context["targetingKey"].as_str().filter(|user| !user.is_empty()) else { return Found::Other };
    let point = scaled(total, hash(format!("{key}{user}").as_bytes()));
    let mut end = 0;
    for (name, weight) in entries {
        end += weight;
        if point < end {
            return Found::Text(name);
        }
    }
    Found::Other
}

struct Flag {
    is_enabled: bool,
    variants: HashMap<String, Value>,
    default: Option<String>,
    targeting: Option<Rule>,
}

/// The flags of a document, without those that are broken.
fn flags_of(document: &Value) -> Option<HashMap<String, Flag>> {
    let none = Map::new();
    let named = document["$evaluators"].as_object().unwrap_or(&none);
    let flag = |flag: &Value| {
        let targeting = match flag.get("targeting") {
            Some(rule) => Some(Rule::of(rule, named)?),
            None => None,
        };
        Some(Flag {
            is_enabled: flag["state"] == "ENABLED",
            variants: flag["variants"].as_object()?.iter().map(|(name, value)| (name.clone(), value.clone())).collect(),
            default: flag["defaultVariant"].as_str().map(String::from),
            targeting,
        })
    };
    Some(document["flags"].as_object()?.iter().filter_map(|(key, value)| Some((key.clone(), flag(value)?))).collect())
}

/// How many bytes are written, how many of them are the value, and the reason.
type Answer = (usize, usize, &'static str);

/// Writes the value and the variant's name, or the default without one.
fn compiled(
    flags: &HashMap<String, Flag>,
    key: &[u8],
    default: &[u8],
    context: &Value,
    out: &mut [u8],
) -> Result<Answer, Fault> {
    let key = std::str::from_utf8(key)?;
    let default: Value = serde_json::from_slice(default)?;
    let (variant, reason) = match flags.get(key) {
        None => (None, "ERROR"),
        Some(flag) if !flag.is_enabled => (None, "DISABLED"),
        Some(flag) => {
            let (name, reason) = match flag.targeting.as_ref().map(|rule| rule.value(key, context)) {
                None => (flag.default.as_deref(), "STATIC"),
                Some(Found::Text(name)) => (Some(name), "TARGETING_MATCH"),
                Some(Found::Bool(name)) => (Some(if name { "true" } else { "false" }), "TARGETING_MATCH"),
                Some(Found::Other) => (flag.default.as_deref(), "DEFAULT"),
            };
            (name.and_then(|name| flag.variants.get_key_value(name)).filter(|it| it.1.is_boolean()), reason)
        }
    };
    let room = out.len();
    let mut rest = out;
    serde_json::to_writer(&mut rest, variant.map_or(&default, |it| it.1))?;
    let value = room - rest.len();
    rest.write_all(variant.map_or(&[], |it| it.0.as_bytes()))?;
    Ok((room - rest.len(), value, reason))
}

/// The same where the targeting is walked as it stands.
fn walked(flags: &Flags, key: &[u8], default: &[u8], context: &Value, out: &mut [u8]) -> Result<Answer, Fault> {
    let key = std::str::from_utf8(key)?;
    let default: Value = serde_json::from_slice(default)?;
    let (variant, reason, _) = ofrep::found(flags.get(key).ok_or("no such flag")?, key, context);
    let room = out.len();
    let mut rest = out;
    match variant {
        Some((_, value)) => rest.write_all(value.as_bytes())?,
        None => serde_json::to_writer(&mut rest, &default)?,
    }
    let value = room - rest.len();
    rest.write_all(variant.map_or(&[], |it| it.0.as_bytes()))?;
    Ok((room - rest.len(), value, reason))
}

/// The seconds of a processor that this thread has had.
fn used() -> Result<f64, Fault> {
    let times = std::fs::read_to_string("/proc/thread-self/schedstat")?;
    let first = times.split(' ').next().ok_or("no times")?;
    Ok(first.parse::<f64>()? / 1e9)
}

fn rate(what: &str, seconds: f64, mut act: impl FnMut(usize)) -> Result<String, Fault> {
    let (begin, mut count) = (used()?, 0);
    while used()? < begin + seconds {
        for _ in 0..10_000 {
            act(count);
            count += 1;
        }
    }
    let each = (used()? - begin) / count as f64;
    Ok(format!("{what}: {:.0} a second, {:.3} microseconds each\n", 1.0 / each, 1e6 * each))
}

/// The two rates of a way to resolve.
fn both(
    what: &str,
    seconds: f64,
    resolve: impl Fn(&[u8], &Value, &mut [u8]) -> Result<Answer, Fault>,
) -> Result<String, Fault> {
    let contexts: Vec<String> =
        (0..1000).map(|i| format!(r#"{{"targetingKey":"user-{i}","email":"m@example.org"}}"#)).collect();
    let (kept, mut out): (Value, _) = (serde_json::from_str(&contexts[0])?, [0; 256]);
    let mut ask = |context: &Value| {
        let answer = resolve(black_box(b"false"), black_box(context), &mut out);
        black_box(answer.map_or(0, |it| it.0 + it.1 + it.2.len()));
    };
    let once = rate(&format!("{what}, a context that was read once"), seconds, |_| ask(&kept))?;
    let each = rate(&format!("{what}, a context that is read each time"), seconds, |i| {
        ask(&serde_json::from_slice(black_box(contexts[i % contexts.len()].as_bytes())).unwrap_or_default())
    })?;
    Ok(once + &each)
}

pub fn rates(document: &Value, key: &str, seconds: f64) -> Result<String, Fault> {
    let (flags, plain) = (flags_of(document).ok_or("flags")?, ofrep::flags_of(document).ok_or("flags")?);
    let key = black_box(key.as_bytes());
    let first = both("compiled", seconds, |default, context, out| compiled(&flags, key, default, context, out))?;
    let second = both("walked", seconds, |default, context, out| walked(&plain, key, default, context, out))?;
    Ok(first + &second)
}
