//! A cheapest flow from groups of points to names, by successive shortest paths over the names.

/// Points of one old name with so many inputs each.
pub struct Group {
    pub name: usize,
    pub count: u32,
    pub points: u32,
}

const FAR: i64 = i64::MAX / 4;

/// For each group how many of its points have each name, and the potential of each name.
pub struct Flow {
    pub points: Vec<Vec<u32>>,
    pub potentials: Vec<i64>,
}

struct Search<'a> {
    groups: &'a [Group],
    prices: &'a [Vec<Option<u64>>],
    points: Vec<Vec<u32>>,
    // the cheapest move of a point from one name to another, with its group; rows that changed are made anew
    moves: Vec<Vec<(i64, usize)>>,
    potentials: Vec<i64>,
}

impl Search<'_> {
    fn cost(&self, group: usize, name: usize) -> Option<i64> {
        let Group { name: old, count, .. } = self.groups[group];
        self.prices[old][name].map(|price| price as i64 * i64::from(count))
    }

    /// The cheapest path from a name with too many points to one that may take more: its names.
    fn path(&mut self, sources: &[bool], targets: &[bool]) -> Option<Vec<usize>> {
        let names = self.potentials.len();
        let mut distance: Vec<i64> = sources.iter().map(|source| if *source { 0 } else { FAR }).collect();
        let (mut before, mut done) = (vec![usize::MAX; names], vec![false; names]);
        let end = loop {
            let next =
                (0..names).filter(|name| !done[*name] && distance[*name] < FAR).min_by_key(|name| distance[*name])?;
            if targets[next] {
                break next;
            }
            done[next] = true;
            for to in (0..names).filter(|to| !done[*to]) {
                let (cost, _) = self.moves[next][to];
                let way = distance[next] + cost + self.potentials[next] - self.potentials[to];
                if cost < FAR && way < distance[to] {
                    (distance[to], before[to]) = (way, next);
                }
            }
        };
        for (potential, distance_of) in self.potentials.iter_mut().zip(&distance) {
            *potential += (*distance_of).min(distance[end]);
        }
        let mut path = vec![end];
        while before[path[path.len() - 1]] != usize::MAX {
            path.push(before[path[path.len() - 1]]);
        }
        path.reverse();
        Some(path)
    }
}

/// The cheapest flow within the limits, where there is one. The last node stands for all limits: a name sends what it has to it,
/// at least its low limit and at most its high one.
pub fn cheapest(groups: &[Group], prices: &[Vec<Option<u64>>], limits: &[(u32, u32)]) -> Option<Flow> {
    let names = limits.len();
    let mut search = Search {
        groups,
        prices,
        points: vec![vec![0; names]; groups.len()],
        moves: vec![vec![(FAR, 0); names + 1]; names + 1],
        potentials: vec![0; names + 1],
    };
    for group in 0..groups.len() {
        let best = (0..names)
            .filter(|name| search.cost(group, *name).is_some())
            .min_by_key(|name| (search.cost(group, *name), *name != groups[group].name))?;
        search.points[group][best] = groups[group].points;
    }
    let mut loads: Vec<i64> =
        (0..names).map(|name| search.points.iter().map(|row| i64::from(row[name])).sum()).collect();
    let mut sent: Vec<i64> =
        loads.iter().zip(limits).map(|(load, limit)| (*load).clamp(limit.0.into(), limit.1.into())).collect();
    let total: i64 = loads.iter().sum();
    for name in 0..names {
        refresh(&mut search, name, &sent, limits);
    }
    loop {
        let pool = sent.iter().sum::<i64>() - total;
        let excess: Vec<i64> = loads.iter().zip(&sent).map(|(load, sent)| load - sent).chain([pool]).collect();
        if excess.iter().all(|excess| *excess == 0) {
            break;
        }
        set_limits(&mut search, &sent, limits);
        let (sources, targets): (Vec<bool>, Vec<bool>) = excess.iter().map(|excess| (*excess > 0, *excess < 0)).unzip();
        let path = search.path(&sources, &targets)?;
        augment(&mut search, &path, &excess, &mut loads, &mut sent, limits);
    }
    let base = search.potentials[names];
    let potentials = search.potentials[..names].iter().map(|potential| potential - base).collect();
    Some(Flow { points: search.points, potentials })
}

fn refresh(search: &mut Search, name: usize, sent: &[i64], limits: &[(u32, u32)]) {
    let names = limits.len();
    let mut row = vec![(FAR, 0); names + 1];
    for group in (0..search.groups.len()).filter(|group| search.points[*group][name] > 0) {
        let here = search.cost(group, name).unwrap();
        for (to, best) in row[..names].iter_mut().enumerate() {
            if let Some(there) = search.cost(group, to) {
                *best = (*best).min((there - here, group));
            }
        }
    }
    search.moves[name] = row;
    set_limits(search, sent, limits);
}

/// The moves to and from the node of the limits, which cost nothing.
fn set_limits(search: &mut Search, sent: &[i64], limits: &[(u32, u32)]) {
    let names = limits.len();
    for (name, (sent, limit)) in sent.iter().zip(limits).enumerate() {
        search.moves[name][names] = (if *sent < limit.1.into() { 0 } else { FAR }, usize::MAX);
        search.moves[names][name] = (if *sent > limit.0.into() { 0 } else { FAR }, usize::MAX);
    }
}

/// Moves as many points along the path as it carries.
fn augment(
    search: &mut Search,
    path: &[usize],
    excess: &[i64],
    loads: &mut [i64],
    sent: &mut [i64],
    limits: &[(u32, u32)],
) {
    let names = limits.len();
    let mut amount = excess[path[0]].min(-excess[path[path.len() - 1]]);
    for step in path.windows(2) {
        amount = amount.min(match (step[0], step[1]) {
            (from, to) if to == names => i64::from(limits[from].1) - sent[from],
            (from, to) if from == names => sent[to] - i64::from(limits[to].0),
            (from, to) => i64::from(search.points[search.moves[from][to].1][from]),
        });
    }
    let steps: Vec<(usize, usize, usize)> =
        path.windows(2).map(|step| (step[0], step[1], search.moves[step[0]][step[1]].1)).collect();
    for (from, to, group) in steps {
        if to == names {
            sent[from] += amount;
        } else if from == names {
            sent[to] -= amount;
        } else {
            search.points[group][from] -= amount as u32;
            search.points[group][to] += amount as u32;
            loads[from] -= amount;
            loads[to] += amount;
        }
    }
    for name in path.iter().filter(|name| **name < names) {
        refresh(search, *name, sent, limits);
    }
}
