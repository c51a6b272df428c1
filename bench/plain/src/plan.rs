//! The commands `plan` and `verify`.
use crate::book;
use crate::flow::{cheapest, Group};
use crate::request::Request;
use crate::rule::{scaled, Rule};
use crate::Fault;
use serde_json::{json, Value};

/// The old rule with its variants' names by number, and for each run of points its name and how many inputs fall on each.
struct Question<'a> {
    request: Request,
    rule: Rule<'a>,
    names: Vec<String>,
    limits: Vec<(u32, u32)>,
    hashes: Vec<u32>,
    runs: Vec<(usize, u32, u32)>,
}

fn fractional<'a>(document: &'a Value, flag: &str) -> Result<Rule<'a>, Fault> {
    Rule::seen(&document["flags"][flag]["targeting"]["fractional"])
}

fn number_of(names: &[String], name: &str) -> Option<usize> {
    names.binary_search_by(|other| other.as_str().cmp(name)).ok()
}

/// The runs of points of one entry with one number of inputs: name, inputs on each, points.
fn runs(rule: &Rule, names: &[String], hashes: &[u32]) -> Vec<(usize, u32, u32)> {
    let total = rule.total();
    let mut counts = vec![0u32; total as usize];
    hashes.iter().for_each(|hash| counts[scaled(total, *hash) as usize] += 1);
    let mut runs: Vec<(usize, u32, u32)> = Vec::new();
    let mut point = 0;
    for ((name, _), end) in rule.entries.iter().zip(&rule.ends) {
        let name = number_of(names, name).unwrap();
        for count in &counts[point..*end as usize] {
            match runs.last_mut() {
                Some(last) if last.0 == name && last.1 == *count => last.2 += 1,
                _ => runs.push((name, *count, 1)),
            }
        }
        point = *end as usize;
    }
    runs
}

fn question<'a>(document: &'a Value, request: &Value, hashes: Vec<u32>) -> Result<Question<'a>, Fault> {
    let request = Request::of(request)?;
    let rule = fractional(document, &request.flag)?;
    let names: Vec<String> = document["flags"][&request.flag]["variants"]
        .as_object()
        .ok_or("a flag has variants")?
        .keys()
        .cloned()
        .collect();
    if rule.entries.iter().any(|entry| number_of(&names, entry.0).is_none()) {
        return Err("a name is no variant".into());
    }
    let limits = names.iter().map(|name| request.totals.get(name).copied().unwrap_or((0, 0))).collect();
    let runs = runs(&rule, &names, &hashes);
    Ok(Question { request, rule, names, limits, hashes, runs })
}

impl Question<'_> {
    /// The groups by name and number of inputs, and for each name the place of the group of each number.
    fn groups(&self) -> (Vec<Group>, Vec<Vec<usize>>) {
        let most = self.runs.iter().map(|run| run.1).max().unwrap_or(0);
        let mut points = vec![vec![0; most as usize + 1]; self.names.len()];
        self.runs.iter().for_each(|(name, count, more)| points[*name][*count as usize] += *more as usize);
        let mut groups = Vec::new();
        for (name, row) in points.iter_mut().enumerate() {
            for (count, place) in row.iter_mut().enumerate().filter(|(_, points)| **points > 0) {
                groups.push(Group { name, count: count as u32, points: *place as u32 });
                *place = groups.len() - 1;
            }
        }
        (groups, points)
    }

    fn table(&self) -> Vec<Vec<Option<u64>>> {
        let names: Vec<&str> = self.names.iter().map(String::as_str).collect();
        self.request.table(&names, &names)
    }
}

pub fn plan(document: &Value, request: &Value, book: &str) -> Result<String, Fault> {
    let hashes = book::hashes(book, request["flag"].as_str().unwrap_or(""))?;
    let question = question(document, request, hashes)?;
    let (groups, places) = question.groups();
    let prices = question.table();
    let flow = cheapest(&groups, &prices, &question.limits).ok_or("no rule fits")?;
    let (mut left, mut first) = (flow.points.clone(), vec![0; groups.len()]);
    let mut entries: Vec<(usize, u32)> = Vec::new();
    for (name, count, points) in &question.runs {
        let (mut points, group) = (*points, places[*name][*count as usize]);
        while points > 0 {
            let to = &mut first[group];
            let taken = points.min(left[group][*to]);
            left[group][*to] -= taken;
            points -= taken;
            match entries.last_mut() {
                Some(last) if last.0 == *to => last.1 += taken,
                _ if taken > 0 => entries.push((*to, taken)),
                _ => {}
            }
            *to += usize::from(points > 0);
        }
    }
    let cost_of =
        |group: &Group, name: usize| prices[group.name][name].map(|price| price as i64 * i64::from(group.count));
    let least = |group: &Group| {
        flow.potentials.iter().enumerate().filter_map(|(name, beta)| Some(cost_of(group, name)? - beta)).min().unwrap()
    };
    let cost: i64 = groups
        .iter()
        .zip(&flow.points)
        .flat_map(|(group, row)| {
            row.iter()
                .enumerate()
                .filter(|(_, n)| **n > 0)
                .map(move |(name, n)| i64::from(*n) * cost_of(group, name).unwrap())
        })
        .sum();
    let alpha: Vec<Value> =
        groups.iter().map(|group| json!([question.names[group.name], group.count, least(group)])).collect();
    let beta: Vec<Value> =
        question.names.iter().zip(&flow.potentials).map(|(name, beta)| json!([name, beta])).collect();
    let rule: Vec<Value> = entries.iter().map(|(name, weight)| json!([question.names[*name], weight])).collect();
    Ok(format!("{}\n", json!({ "alpha": alpha, "beta": beta, "cost": cost, "plan": 1, "rule": rule })))
}

/// The name, and the numbers behind it.
fn row<'a, const N: usize>(value: &'a Value) -> Result<(&'a str, [i64; N]), Fault> {
    let items = value.as_array().filter(|items| items.len() == N + 1).ok_or("a row of another length")?;
    let mut numbers = [0; N];
    for (number, item) in numbers.iter_mut().zip(&items[1..]) {
        *number = item.as_i64().ok_or("no number")?;
    }
    Ok((items[0].as_str().ok_or("no name")?, numbers))
}

fn rows<'a, const N: usize>(value: &'a Value) -> Result<Vec<(&'a str, [i64; N])>, Fault> {
    value.as_array().ok_or("no list")?.iter().map(row).collect()
}

pub fn verify(document: &Value, request: &Value, book: &str, plan: &Value) -> Result<String, Fault> {
    let hashes = book::hashes(book, request["flag"].as_str().unwrap_or(""))?;
    let question = question(document, request, hashes)?;
    let new = Rule::seen(&plan["rule"])?;
    let mut totals = vec![0u64; question.names.len()];
    for (name, weight) in &new.entries {
        totals[number_of(&question.names, name).ok_or("an unknown name")?] += u64::from(*weight);
    }
    let within = totals
        .iter()
        .zip(&question.limits)
        .all(|(total, limit)| u64::from(limit.0) <= *total && *total <= u64::from(limit.1));
    if new.total() != question.rule.total()
        || !within
        || question.request.first_forbidden(&question.rule, &new).is_some()
    {
        return Err("the rule does not fit".into());
    }
    let (alpha, beta) = (rows::<2>(&plan["alpha"])?, rows::<1>(&plan["beta"])?);
    let ((groups, _), prices) = (question.groups(), question.table());
    let same_names = beta.iter().map(|row| row.0).eq(question.names.iter().map(String::as_str));
    if alpha.len() != groups.len() || !same_names {
        return Err("other groups".into());
    }
    let mut sum = 0i128;
    for (Group { name, count, points }, (other, [number, value])) in groups.iter().zip(&alpha) {
        if question.names[*name] != *other || i64::from(*count) != *number {
            return Err("other groups".into());
        }
        let holds = |to: usize, beta: i64| {
            prices[*name][to]
                .map_or(true, |price| i128::from(*value) + i128::from(beta) <= i128::from(price) * i128::from(*count))
        };
        if !beta.iter().enumerate().all(|(to, (_, [beta]))| holds(to, *beta)) {
            return Err("a change costs less".into());
        }
        sum += i128::from(*points) * i128::from(*value);
    }
    for ((_, [beta]), (low, high)) in beta.iter().zip(&question.limits) {
        sum += i128::from(*beta) * i128::from(if *beta > 0 { *low } else { *high });
    }
    let cost = question.request.cost(&question.rule, &new, &question.hashes);
    if sum != i128::from(cost) || plan["cost"].as_u64() != Some(cost) {
        return Err("another cost".into());
    }
    Ok(format!("valid cost {cost}\n"))
}
