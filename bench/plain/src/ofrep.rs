//! `ofrep` in plain Rust: single flags of one document over HTTP/1.1, by workers of `mio` that share an address, each with a log of
//! its own that a note is written to before the answer that it decided. What is told twice is remembered, up to 65,536 notes.
use crate::rule::Rule;
use crate::Fault;
use mio::net::{TcpListener, TcpStream};
use mio::{Events, Interest, Poll, Token};
use serde_json::{Map, Value};
use std::collections::{HashMap, HashSet};
use std::fs::File;
use std::io::{ErrorKind, Read, Write};

const REMEMBERED: usize = 65_536;
const PREFIX: &str = "/ofrep/v1/evaluate/flags/";

/// A flag as it is answered from.
pub struct Flag {
    is_enabled: bool,
    variants: HashMap<String, String>,
    default: Option<String>,
    targeting: Option<Value>,
}

pub type Flags = HashMap<String, Flag>;

/// The targeting with each `$ref` replaced by what it names.
fn resolved(value: &Value, named: &Map<String, Value>) -> Value {
    match value {
        Value::Object(members) => match members.get("$ref").and_then(Value::as_str) {
            Some(name) => resolved(&named[name], named),
            None => members.iter().map(|(key, value)| (key.clone(), resolved(value, named))).collect(),
        },
        Value::Array(items) => items.iter().map(|item| resolved(item, named)).collect(),
        other => other.clone(),
    }
}

pub fn flags_of(document: &Value) -> Option<Flags> {
    let none = Map::new();
    let named = document["$evaluators"].as_object().unwrap_or(&none);
    let flag = |flag: &Value| {
        Some(Flag {
            is_enabled: flag["state"] == "ENABLED",
            variants: flag["variants"]
                .as_object()?
                .iter()
                .map(|(name, value)| (name.clone(), value.to_string()))
                .collect(),
            default: flag["defaultVariant"].as_str().map(String::from),
            targeting: flag.get("targeting").map(|rule| resolved(rule, named)),
        })
    };
    document["flags"].as_object()?.iter().map(|(key, value)| Some((key.clone(), flag(value)?))).collect()
}

/// One evaluation: the context, and what reached a `fractional` operation.
struct Evaluation<'a> {
    key: &'a str,
    context: &'a Value,
    notes: Vec<String>,
}

impl Evaluation<'_> {
    fn value(&mut self, rule: &Value) -> Value {
        let Value::Object(members) = rule else { return rule.clone() };
        let Some((operator, given)) = members.iter().next() else { return rule.clone() };
        let one = std::slice::from_ref(given);
        let given = given.as_array().map_or(one, Vec::as_slice);
        match operator.as_str() {
            "var" => self.member(given[0].as_str().unwrap_or("")),
            "if" => self.branch(given),
            "fractional" => self.fractional(given),
            "ends_with" => self.texts(given, |text, end| text.ends_with(end)),
            "starts_with" => self.texts(given, |text, start| text.starts_with(start)),
            "==" => Value::Bool(self.value(&given[0]) == self.value(&given[1])),
            "sem_ver" => self.at_least(given),
            _ => Value::Null,
        }
    }

    fn member(&self, path: &str) -> Value {
        path.split('.').fold(self.context, |value, name| &value[name]).clone()
    }

    fn branch(&mut self, given: &[Value]) -> Value {
        for pair in given.chunks(2) {
            match pair {
                [condition, then] => {
                    let met = self.value(condition);
                    if !matches!(met, Value::Null | Value::Bool(false)) && met != "" && met != 0 {
                        return self.value(then);
                    }
                }
                rest => return self.value(&rest[0]),
            }
        }
        Value::Null
    }

    fn texts(&mut self, given: &[Value], holds: impl Fn(&str, &str) -> bool) -> Value {
        let (text, part) = (self.value(&given[0]), self.value(&given[1]));
        Value::Bool(matches!((text.as_str(), part.as_str()), (Some(text), Some(part)) if holds(text, part)))
    }

    /// A version at least another, each of three numbers.
    fn at_least(&mut self, given: &[Value]) -> Value {
        let numbers = |value: Value| -> Vec<u64> {
            value.as_str().unwrap_or("").split('.').filter_map(|part| part.parse().ok()).collect()
        };
        let (ours, theirs) = (numbers(self.value(&given[0])), numbers(self.value(&given[2])));
        Value::Bool(ours.len() == 3 && ours >= theirs)
    }

    fn fractional(&mut self, given: &[Value]) -> Value {
        let Some(user) = self.context["targetingKey"].as_str().filter(|user| !user.is_empty()) else {
            return Value::Null;
        };
        let input = format!("{}{user}", self.key);
        let entries: Option<Vec<_>> = given.iter().map(|it| Some((it[0].as_str()?, it[1].as_u64()? as u32))).collect();
        let Some(Ok(rule)) = entries.map(Rule::new) else { return Value::Null };
        let name = rule.name_at(rule.point(&input)).to_string();
        self.notes.push(format!("[{},0,null,{}]\n", Value::from(self.key), Value::from(input)));
        Value::String(name)
    }
}

/// Where notes are kept, and those that were written.
struct Log {
    file: Option<File>,
    written: HashSet<String>,
}

impl Log {
    fn keep(&mut self, notes: Vec<String>) -> std::io::Result<()> {
        let Some(file) = &mut self.file else { return Ok(()) };
        for note in notes {
            if !self.written.contains(&note) {
                file.write_all(note.as_bytes())?;
                if self.written.len() == REMEMBERED {
                    self.written.clear();
                }
                self.written.insert(note);
            }
        }
        Ok(())
    }
}

/// The variant of a flag in a context and its value as JSON, with the reason and the notes of what was reached.
type Found<'a> = (Option<(&'a str, &'a str)>, &'static str, Vec<String>);

pub fn found<'a>(flag: &'a Flag, key: &str, context: &Value) -> Found<'a> {
    let mut evaluation = Evaluation { key, context, notes: Vec::new() };
    let (variant, reason) = match &flag.targeting {
        None => (flag.default.clone(), "STATIC"),
        Some(rule) => match evaluation.value(rule) {
            Value::String(name) => (Some(name), "TARGETING_MATCH"),
            _ => (flag.default.clone(), "DEFAULT"),
        },
    };
    let entry = variant.and_then(|name| flag.variants.get_key_value(&name));
    (entry.map(|(name, value)| (name.as_str(), value.as_str())), reason, evaluation.notes)
}

/// The status and the body of the answer for a flag.
fn answer(flags: &Flags, log: &mut Log, key: &str, body: &[u8]) -> (&'static str, String) {
    let missing = || {
        (
            "404 Not Found",
            format!(r#"{{"errorCode":"FLAG_NOT_FOUND","errorDetails":"no variant","key":{}}}"#, Value::from(key)),
        )
    };
    let Ok(request) = serde_json::from_slice::<Value>(body) else {
        return ("400 Bad Request", r#"{"errorCode":"PARSE_ERROR"}"#.into());
    };
    let Some(flag) = flags.get(key).filter(|flag| flag.is_enabled) else { return missing() };
    let (Some((variant, value)), reason, notes) = found(flag, key, &request["context"]) else { return missing() };
    if log.keep(notes).is_err() {
        return ("500 Internal Server Error", "{}".into());
    }
    let [key, variant] = [key, variant].map(Value::from);
    ("200 OK", format!(r#"{{"key":{key},"metadata":{{}},"reason":"{reason}","value":{value},"variant":{variant}}}"#))
}

struct Connection {
    stream: TcpStream,
    read: Vec<u8>,
    unsent: Vec<u8>,
}

impl Connection {
    /// Answers each whole request that was read.
    fn answer_all(&mut self, flags: &Flags, log: &mut Log) -> Option<()> {
        let mut start = 0;
        while let Some(head) = self.read[start..].windows(4).position(|it| it == b"\r\n\r\n") {
            let text = std::str::from_utf8(&self.read[start..start + head]).ok()?;
            let path = text.split(' ').nth(1)?;
            let length = |line: &str| {
                line.split_once(':')
                    .filter(|(name, _)| name.eq_ignore_ascii_case("content-length"))?
                    .1
                    .trim()
                    .parse()
                    .ok()
            };
            let length: usize = text.lines().find_map(length).unwrap_or(0);
            let (body, end) = (start + head + 4, start + head + 4 + length);
            if end > self.read.len() {
                break;
            }
            let (status, body) = answer(flags, log, path.strip_prefix(PREFIX)?, &self.read[body..end]);
            write!(
                self.unsent,
                "HTTP/1.1 {status}\r\nContent-Type: application/json\r\nContent-Length: {}\r\n\r\n{body}",
                body.len()
            )
            .ok()?;
            start = end;
        }
        self.read.drain(..start);
        Some(())
    }

    /// Reads, answers and sends until there is nothing left to do; None where the connection has ended.
    fn go_on(&mut self, flags: &Flags, log: &mut Log) -> Option<()> {
        let mut piece = [0; 65_536];
        loop {
            while !self.unsent.is_empty() {
                match self.stream.write(&self.unsent) {
                    Ok(count) => drop(self.unsent.drain(..count)),
                    Err(fault) if fault.kind() == ErrorKind::WouldBlock => return Some(()),
                    Err(_) => return None,
                }
            }
            match self.stream.read(&mut piece) {
                Ok(0) => return None,
                Ok(count) => self.read.extend_from_slice(&piece[..count]),
                Err(fault) if fault.kind() == ErrorKind::WouldBlock => return Some(()),
                Err(_) => return None,
            }
            self.answer_all(flags, log)?;
        }
    }
}

fn work(mut listener: TcpListener, flags: &Flags, mut log: Log) -> std::io::Result<()> {
    let (mut poll, mut events) = (Poll::new()?, Events::with_capacity(1024));
    let mut connections = HashMap::new();
    let mut next = 1;
    poll.registry().register(&mut listener, Token(0), Interest::READABLE)?;
    loop {
        poll.poll(&mut events, None)?;
        for event in &events {
            if event.token() == Token(0) {
                while let Ok((mut stream, _)) = listener.accept() {
                    stream.set_nodelay(true)?;
                    poll.registry().register(&mut stream, Token(next), Interest::READABLE | Interest::WRITABLE)?;
                    connections.insert(Token(next), Connection { stream, read: Vec::new(), unsent: Vec::new() });
                    next += 1;
                }
            } else if let Some(connection) = connections.get_mut(&event.token()) {
                if connection.go_on(flags, &mut log).is_none() {
                    connections.remove(&event.token());
                }
            }
        }
    }
}

/// Answers until it is ended from outside.
pub fn serve(address: &str, workers: usize, log: Option<&str>, document: &Value) -> Result<String, Fault> {
    let flags = flags_of(document).ok_or("no flags")?;
    let listener = std::net::TcpListener::bind(address)?;
    listener.set_nonblocking(true)?;
    if let Some(folder) = log {
        std::fs::create_dir_all(folder)?;
    }
    println!("serving 1");
    std::thread::scope(|scope| -> Result<(), Fault> {
        for worker in 1..=workers {
            let listener = TcpListener::from_std(listener.try_clone()?);
            let open = |folder| File::options().append(true).create(true).open(format!("{folder}/worker-{worker}.log"));
            let log = Log { file: log.map(open).transpose()?, written: HashSet::new() };
            let flags = &flags;
            scope.spawn(move || work(listener, flags, log));
        }
        Ok(())
    })?;
    Ok(String::new())
}
