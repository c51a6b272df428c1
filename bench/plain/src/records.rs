//! The filters `record` and `tally`, over the streams of the process, a line at a time.
use crate::rule::Rule;
use crate::Fault;
use serde_json::Value;
use std::io::{BufRead, BufReader, BufWriter, Write};

const BUFFER: usize = 1 << 20;

/// What an expression of `if`, `==`, `var` and `fractional` gives; what reaches a `fractional` is told of.
fn value_of(expression: &Value, context: &Value, reached: &mut bool) -> Value {
    let Some((operator, arguments)) = expression.as_object().and_then(|o| o.iter().next()) else {
        return expression.clone();
    };
    match operator.as_str() {
        "var" => context.get(arguments.as_str().unwrap_or_default()).cloned().unwrap_or(Value::Null),
        "==" => Value::Bool(value_of(&arguments[0], context, reached) == value_of(&arguments[1], context, reached)),
        "if" => {
            let branch = if value_of(&arguments[0], context, reached) == Value::Bool(true) { 1 } else { 2 };
            value_of(&arguments[branch], context, reached)
        }
        _ => {
            *reached = true;
            Value::Null
        }
    }
}

/// The notes of contexts, of a flag whose bucketing expression is left out.
pub fn record(document: &Value, flag: &str) -> Result<(), Fault> {
    let targeting = &document["flags"][flag]["targeting"];
    let mut input = BufReader::with_capacity(BUFFER, std::io::stdin().lock());
    let mut output = BufWriter::with_capacity(BUFFER, std::io::stdout().lock());
    let mut line = Vec::new();
    while input.read_until(b'\n', &mut line)? > 0 {
        let context: Value = serde_json::from_slice(&line)?;
        let mut reached = false;
        value_of(targeting, &context, &mut reached);
        if let (true, Some(key)) = (reached, context["targetingKey"].as_str()) {
            let note = (flag, 0, Value::Null, format!("{flag}{key}"));
            serde_json::to_writer(&mut output, &note)?;
            output.write_all(b"\n")?;
        }
        line.clear();
    }
    Ok(output.flush()?)
}

/// How many inputs of sorted notes fall on each point of a rule of the flag's targeting, which is the last argument of its `if`.
pub fn tally(document: &Value, flag: &str) -> Result<(), Fault> {
    let rule = Rule::seen(&document["flags"][flag]["targeting"]["if"][2]["fractional"])?;
    let mut counts = vec![0u32; rule.total() as usize];
    let mut input = BufReader::with_capacity(BUFFER, std::io::stdin().lock());
    let (mut line, mut before) = (Vec::new(), Vec::new());
    while input.read_until(b'\n', &mut line)? > 0 {
        if line <= before {
            return Err("the notes are not in order".into());
        }
        let note: (&str, u32, Option<&str>, std::borrow::Cow<str>) = serde_json::from_slice(&line)?;
        if note.0 == flag && note.1 == 0 && note.2.is_none() {
            counts[rule.point(&note.3) as usize] += 1;
        }
        std::mem::swap(&mut line, &mut before);
        line.clear();
    }
    for (point, count) in counts.iter().enumerate().filter(|(_, count)| **count > 0) {
        println!("[{point},{count}]");
    }
    Ok(())
}
