//! Day files made from a seed: sound ones of all shapes, and damaged ones with every refusal at its edge.
use crate::model::{regroup, Group, Route};

/// A small generator of numbers (xorshift), so that every run makes the same files.
pub struct Seed(pub u64);

impl Seed {
    pub fn next(&mut self) -> u64 {
        self.0 ^= self.0 << 13;
        self.0 ^= self.0 >> 7;
        self.0 ^= self.0 << 17;
        self.0
    }

    /// A number below n.
    pub fn below(&mut self, n: usize) -> usize {
        (self.next() % n as u64) as usize
    }

    pub fn one_in(&mut self, n: usize) -> bool {
        self.below(n) == 0
    }
}

pub struct Parts {
    pub stations: u8,
    pub routes: Vec<[u8; 3]>,
    pub groups: Vec<[u8; 4]>,
    pub handovers: Vec<[u8; 2]>,
    pub questions: Vec<[u8; 4]>,
    pub gaps: [usize; 5],
}

fn pairs(seed: &mut Seed, shape: usize, n: u8) -> Vec<(u8, u8)> {
    let mut out = Vec::new();
    match shape {
        0 => (0..n).for_each(|a| (a + 1..n).for_each(|b| out.push((a, b)))),
        1 => (1..n).for_each(|b| out.push((seed.below(b as usize) as u8, b))),
        2 => {
            (1..n).for_each(|b| out.push((b - 1, b)));
            if n > 2 {
                out.push((0, n - 1));
            }
        }
        3 => {
            for a in (0..n.saturating_sub(2)).step_by(if seed.one_in(2) { 2 } else { 3 }) {
                out.extend([(a, a + 1), (a, a + 2), (a + 1, a + 2)]);
            }
            if n > 3 && seed.one_in(2) {
                out.push((0, n - 1));
            }
        }
        _ => {
            let odds = 1 + seed.below(6);
            for a in 0..n {
                for b in a + 1..n {
                    if seed.one_in(odds) {
                        out.push((a, b));
                    }
                }
            }
        }
    }
    out.sort();
    out.dedup();
    out
}

/// A sound day: the shape of its floor, whether its groups are given, how many handovers and questions at most.
pub fn sound(seed: &mut Seed, shape: usize, given: bool, many: usize) -> Parts {
    let n = match seed.below(4) {
        0 => 1 + seed.below(4) as u8,
        1 => 32,
        _ => 1 + seed.below(32) as u8,
    };
    let mut routes: Vec<Route> = pairs(seed, shape, n).iter().map(|(low, high)| Route { low: *low, high: *high, group: None }).collect();
    let mut groups: Vec<Group> = Vec::new();
    if given && !routes.is_empty() {
        if seed.one_in(2) {
            groups = regroup(n as usize, &mut routes);
        } else {
            // each route joins a star at one of its ends
            for r in routes.iter_mut() {
                let centre = if seed.one_in(2) { r.low } else { r.high };
                let k = groups.iter().position(|g| *g == Group::Star(centre)).unwrap_or_else(|| {
                    groups.push(Group::Star(centre));
                    groups.len() - 1
                });
                r.group = Some(k);
            }
        }
        // the groups' numbers are exchanged now and then
        for _ in 0..seed.below(4) {
            let (a, b) = (seed.below(groups.len()), seed.below(groups.len()));
            groups.swap(a, b);
            for r in routes.iter_mut() {
                r.group = r.group.map(|k| if k == a { b } else if k == b { a } else { k });
            }
        }
    }
    let handovers = (0..many)
        .map(|_| match seed.below(12) {
            0 => [seed.below(256) as u8, seed.below(256) as u8],
            1 => [seed.below(n as usize) as u8, seed.below(n as usize) as u8],
            _ if !routes.is_empty() => {
                let r = routes[seed.below(routes.len())];
                if seed.one_in(2) { [r.low, r.high] } else { [r.high, r.low] }
            }
            _ => [0, 0],
        })
        .collect();
    let questions = (0..many)
        .map(|_| {
            let most = if seed.one_in(20) { 65536 } else { many + 2 };
            let (a, b) = (seed.below(most), seed.below(most));
            [a as u8, (a >> 8) as u8, b as u8, (b >> 8) as u8]
        })
        .collect();
    let mut gaps = [0; 5];
    if seed.one_in(3) {
        gaps.iter_mut().for_each(|g| *g = seed.below(5));
    }
    Parts {
        stations: n,
        routes: routes.iter().map(|r| [r.low, r.high, r.group.map_or(255, |k| k as u8)]).collect(),
        groups: groups
            .iter()
            .map(|g| match g {
                Group::Star(c) => [0, *c, 0, 0],
                Group::Triangle(a, b, c) => [1, *a, *b, *c],
            })
            .collect(),
        handovers,
        questions,
        gaps,
    }
}

pub fn bytes(p: &Parts, seed: &mut Seed) -> Vec<u8> {
    let sections: [Vec<u8>; 4] = [p.routes.concat(), p.groups.concat(), p.handovers.concat(), p.questions.concat()];
    let mut out = vec![0; 18];
    out[0] = p.stations;
    for (k, section) in sections.iter().enumerate() {
        (0..p.gaps[k]).for_each(|_| out.push(seed.below(256) as u8));
        let (start, len) = (out.len(), section.len());
        out[2 + 4 * k..6 + 4 * k].copy_from_slice(&[start as u8, (start >> 8) as u8, len as u8, (len >> 8) as u8]);
        out.extend(section);
    }
    (0..p.gaps[4]).for_each(|_| out.push(seed.below(256) as u8));
    out
}

/// Damages the tables of a sound day: a group too many, a route too few, two records exchanged, one record changed.
pub fn damage_tables(p: &mut Parts, seed: &mut Seed) {
    let n = p.stations as usize;
    match seed.below(6) {
        0 if !p.groups.is_empty() && p.groups.len() < 33 => {
            let at = seed.below(p.groups.len() + 1);
            p.groups.insert(at, [0, seed.below(n) as u8, 0, 0]);
            for r in p.routes.iter_mut().filter(|r| r[2] as usize >= at) {
                r[2] += 1;
            }
        }
        1 if !p.routes.is_empty() => {
            let at = seed.below(p.routes.len());
            p.routes.remove(at);
        }
        2 if p.routes.len() > 1 => {
            let at = seed.below(p.routes.len() - 1);
            p.routes.swap(at, at + 1);
        }
        3 if !p.routes.is_empty() && !p.groups.is_empty() => {
            let at = seed.below(p.routes.len());
            p.routes[at][2] = seed.below(p.groups.len() + 1) as u8;
        }
        4 if !p.groups.is_empty() => {
            let at = seed.below(p.groups.len());
            let byte = seed.below(4);
            p.groups[at][byte] = seed.below(n + 1) as u8;
        }
        _ => p.groups.push([1, 0, 1, 2]),
    }
}

fn put_word(file: &mut [u8], at: usize, value: usize) {
    file[at] = value as u8;
    file[at + 1] = (value >> 8) as u8;
}

fn get_word(file: &[u8], at: usize) -> usize {
    file[at] as usize + 256 * file[at + 1] as usize
}

/// Damages a sound file in one place, often just past an edge.
pub fn damage_bytes(file: &mut Vec<u8>, seed: &mut Seed) {
    let pair = 2 + 4 * seed.below(4);
    let (start, len) = (get_word(file, pair), get_word(file, pair + 2));
    match seed.below(12) {
        0 => file.truncate([0, 1, 17, 18, 19][seed.below(5)].min(file.len())),
        1 => file.resize([8191, 8192, 8193, 9000][seed.below(4)], 0),
        2 => file[0] = [0, 1, 32, 33, 255][seed.below(5)],
        3 => file[1] = 1 + seed.below(255) as u8,
        4 => put_word(file, pair, (start + 65535 + seed.below(3)) % 65536),
        5 => put_word(file, pair + 2, (len + 65535 + seed.below(3)) % 65536),
        6 => put_word(file, pair, seed.below(20)),
        7 => {
            let at = file.len() - seed.below(3).min(file.len());
            put_word(file, pair, at);
        }
        8 | 9 | 10 if len > 0 => {
            // one byte of a record, by one or at random
            let at = start + seed.below(len);
            file[at] = if seed.one_in(2) { file[at].wrapping_add(1) } else { seed.below(36) as u8 };
        }
        8 => file[2] = 17,
        _ => {
            let at = seed.below(file.len());
            file[at] = seed.below(256) as u8;
        }
    }
}
