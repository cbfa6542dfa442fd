//! An independent model of the day file, the grouping and the day sheet, in plain Rust and straight from docs/.
//! It counts by counting and decides the order of handovers by searching chains; it knows nothing of stamps as the book
//! makes them. `compare.rs` holds the proved programs to it.

pub const MOST_STATIONS: usize = 32;

#[derive(Clone, Copy, PartialEq, Eq, Debug)]
pub enum Group {
    Star(u8),
    Triangle(u8, u8, u8),
}

#[derive(Clone, Copy, PartialEq, Eq, Debug)]
pub struct Route {
    pub low: u8,
    pub high: u8,
    pub group: Option<usize>,
}

pub struct Day {
    pub stations: usize,
    pub routes: Vec<Route>,
    pub groups: Vec<Group>,
    pub handovers: Vec<(u8, u8)>,
    pub questions: Vec<(usize, usize)>,
}

/// A refusal: its number and its place in the file.
pub type Refusal = (usize, usize);

fn word(bytes: &[u8], at: usize) -> usize {
    bytes[at] as usize + 256 * bytes[at + 1] as usize
}

fn has_end(r: &Route, s: u8) -> bool {
    r.low == s || r.high == s
}

fn fits(g: Group, r: &Route) -> bool {
    match g {
        Group::Star(c) => has_end(r, c),
        Group::Triangle(a, b, c) => [(a, b), (a, c), (b, c)].contains(&(r.low, r.high)),
    }
}

/// The day that the bytes spell, or the first check that fails.
pub fn parse(bytes: &[u8]) -> Result<Day, Refusal> {
    if bytes.len() < 18 || bytes.len() > 8192 {
        return Err((1, 0));
    }
    let n = bytes[0] as usize;
    if n < 1 || n > MOST_STATIONS {
        return Err((4, 0));
    }
    if bytes[1] != 0 {
        return Err((4, 1));
    }
    let mut sections = Vec::new();
    let mut end = 18;
    for (k, (size, most)) in [(3, 496), (4, 32), (2, 1000), (4, 1000)].into_iter().enumerate() {
        let place = 2 + 4 * k;
        let (start, len) = (word(bytes, place), word(bytes, place + 2));
        if start < end || start + len > bytes.len() {
            return Err((2, place));
        }
        if len % size != 0 {
            return Err((3, place));
        }
        if len / size > most {
            return Err((4, place));
        }
        end = start + len;
        sections.push((start, bytes[start..end].chunks(size).collect::<Vec<_>>()));
    }
    let place = |section: usize, size: usize, i: usize| sections[section].0 + size * i;
    let route_records = &sections[0].1;
    let group_records = &sections[1].1;
    for (i, r) in route_records.iter().enumerate() {
        let rises = i == 0 || (route_records[i - 1][0], route_records[i - 1][1]) < (r[0], r[1]);
        if r[0] >= r[1] || r[1] as usize >= n || !rises {
            return Err((5, place(0, 3, i)));
        }
    }
    let mut groups = Vec::new();
    for (i, g) in group_records.iter().enumerate() {
        let inside = |s: u8| (s as usize) < n;
        groups.push(match **g {
            [0, c, 0, 0] if inside(c) => Group::Star(c),
            [1, a, b, c] if a < b && b < c && inside(c) => Group::Triangle(a, b, c),
            _ => return Err((6, place(1, 4, i))),
        });
    }
    let mut routes = Vec::new();
    for (i, r) in route_records.iter().enumerate() {
        let (low, high, number) = (r[0], r[1], r[2] as usize);
        let bare = Route { low, high, group: None };
        let right = if groups.is_empty() { number == 255 } else { number < groups.len() && fits(groups[number], &bare) };
        if !right {
            return Err((7, place(0, 3, i)));
        }
        routes.push(Route { group: (!groups.is_empty()).then_some(number), ..bare });
    }
    for (k, g) in groups.iter().enumerate() {
        let wanted = if let Group::Star(_) = g { 1 } else { 3 };
        if routes.iter().filter(|r| r.group == Some(k)).count() < wanted {
            return Err((8, place(1, 4, k)));
        }
    }
    if groups.is_empty() {
        groups = regroup(n, &mut routes);
    }
    let handovers = sections[2].1.iter().map(|h| (h[0], h[1])).collect();
    let questions = sections[3].1.iter().map(|q| (word(q, 0), word(q, 2))).collect();
    Ok(Day { stations: n, routes, groups, handovers, questions })
}

fn degree(routes: &[Route], s: u8) -> usize {
    routes.iter().filter(|r| r.group.is_none() && has_end(r, s)).count()
}

fn remains(routes: &[Route], a: u8, b: u8) -> bool {
    routes.iter().any(|r| r.group.is_none() && r.low == a && r.high == b)
}

fn write(routes: &mut [Route], groups: &mut Vec<Group>, g: Group) {
    for r in routes.iter_mut().filter(|r| r.group.is_none()) {
        if fits(g, r) {
            r.group = Some(groups.len());
        }
    }
    groups.push(g);
}

fn loose_triangle(n: u8, routes: &[Route]) -> Option<Group> {
    for a in 0..n {
        for b in a + 1..n {
            if !remains(routes, a, b) {
                continue;
            }
            for c in b + 1..n {
                let thin = [a, b, c].iter().filter(|s| degree(routes, **s) == 2).count();
                if thin >= 2 && remains(routes, a, c) && remains(routes, b, c) {
                    return Some(Group::Triangle(a, b, c));
                }
            }
        }
    }
    None
}

/// Groups the routes anew, by the leaf, the loose triangle and the heaviest route.
pub fn regroup(n: usize, routes: &mut [Route]) -> Vec<Group> {
    let n = n as u8;
    let mut groups = Vec::new();
    routes.iter_mut().for_each(|r| r.group = None);
    while routes.iter().any(|r| r.group.is_none()) {
        while let Some(leaf) = (0..n).find(|s| degree(routes, *s) == 1) {
            let r = routes.iter().find(|r| r.group.is_none() && has_end(r, leaf)).unwrap();
            let centre = if r.low == leaf { r.high } else { r.low };
            write(routes, &mut groups, Group::Star(centre));
        }
        while let Some(t) = loose_triangle(n, routes) {
            write(routes, &mut groups, t);
        }
        let mut heaviest: Option<(usize, Route)> = None;
        for r in routes.iter().filter(|r| r.group.is_none()) {
            let sum = degree(routes, r.low) + degree(routes, r.high);
            if heaviest.map_or(true, |(most, _)| sum > most) {
                heaviest = Some((sum, *r));
            }
        }
        if let Some((_, r)) = heaviest {
            for end in [r.low, r.high] {
                if degree(routes, end) > 0 {
                    write(routes, &mut groups, Group::Star(end));
                }
            }
        }
    }
    groups
}

/// What floorplan prints.
pub fn plan_text(bytes: &[u8]) -> String {
    let day = match parse(bytes) {
        Ok(day) => day,
        Err((number, place)) => return format!("refused {number} at {place}\n"),
    };
    let mut text = format!("stations {}\ncounts {}\n", day.stations, day.groups.len());
    for (k, g) in day.groups.iter().enumerate() {
        text += &match g {
            Group::Star(c) => format!("count {k} star {c}:"),
            Group::Triangle(a, b, c) => format!("count {k} triangle {a} {b} {c}:"),
        };
        for r in day.routes.iter().filter(|r| r.group == Some(k)) {
            text += &format!(" {}-{}", r.low, r.high);
        }
        text += "\n";
    }
    text
}

/// The settled handovers of a day, and for each which of the earlier ones are before it.
pub struct History {
    pub entries: Vec<(u8, u8)>,
    pub dials: Vec<usize>,
    pub before: Vec<Vec<bool>>,
}

fn dial(day: &Day, giver: u8, taker: u8) -> Option<usize> {
    let (low, high) = (giver.min(taker), giver.max(taker));
    day.routes.iter().find(|r| r.low == low && r.high == high).and_then(|r| r.group)
}

fn share(e: (u8, u8), f: (u8, u8)) -> bool {
    e.0 == f.0 || e.0 == f.1 || e.1 == f.0 || e.1 == f.1
}

impl History {
    pub fn new() -> History {
        History { entries: Vec::new(), dials: Vec::new(), before: Vec::new() }
    }

    /// Offers and settles one handover.
    pub fn hand(&mut self, day: &Day, giver: u8, taker: u8) -> Result<usize, usize> {
        let n = day.stations;
        if giver as usize >= n || taker as usize >= n {
            return Err(9);
        }
        if giver == taker {
            return Err(10);
        }
        let dial = dial(day, giver, taker).ok_or(11usize)?;
        if self.entries.len() >= 1000 {
            return Err(13);
        }
        // every chain to the new entry ends with an earlier one that shares a station with it
        let mut before = vec![false; self.entries.len()];
        for i in 0..self.entries.len() {
            if share(self.entries[i], (giver, taker)) {
                before[i] = true;
                for j in 0..i {
                    before[j] |= self.before[i][j];
                }
            }
        }
        self.entries.push((giver, taker));
        self.dials.push(dial);
        self.before.push(before);
        Ok(self.entries.len() - 1)
    }

    pub fn is_before(&self, a: usize, b: usize) -> bool {
        a < b && self.before[b][a]
    }

    /// How many entries turn the dial and are this one or before it.
    pub fn count(&self, e: usize, dial: usize) -> usize {
        (0..=e).filter(|x| self.dials[*x] == dial && (*x == e || self.is_before(*x, e))).count()
    }

    pub fn relation(&self, a: usize, b: usize) -> Result<&'static str, usize> {
        if a >= self.entries.len() || b >= self.entries.len() {
            return Err(15);
        }
        Ok(if a == b {
            "same"
        } else if self.is_before(a, b) {
            "before"
        } else if self.is_before(b, a) {
            "after"
        } else {
            "beside"
        })
    }
}

/// What daysheet prints.
pub fn sheet_text(bytes: &[u8]) -> String {
    let day = match parse(bytes) {
        Ok(day) => day,
        Err((number, place)) => return format!("refused {number} at {place}\n"),
    };
    let mut text = String::new();
    let mut history = History::new();
    for (giver, taker) in &day.handovers {
        match history.hand(&day, *giver, *taker) {
            Ok(number) => {
                let counts: Vec<String> = (0..day.groups.len()).map(|k| history.count(number, k).to_string()).collect();
                text += &format!("{number} {giver} {taker} {}\n", counts.join(","));
            }
            Err(refusal) => text += &format!("- {giver} {taker} refused {refusal}\n"),
        }
    }
    for (a, b) in &day.questions {
        match history.relation(*a, *b) {
            Ok(reply) => text += &format!("{a} {b} {reply}\n"),
            Err(refusal) => text += &format!("{a} {b} refused {refusal}\n"),
        }
    }
    text
}
