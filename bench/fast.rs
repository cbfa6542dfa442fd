//! Plain optimised Rust that does what the proved programs do, for the comparison of speed alone: stamps by the online
//! rule, degrees kept, one output buffer, no formatting machinery. Usage: fast plan|sheet < day.bin
use std::io::{Read, Write};

#[derive(Clone, Copy)]
enum Group {
    Star(u8),
    Triangle(u8, u8, u8),
}

#[derive(Clone, Copy)]
struct Route {
    low: u8,
    high: u8,
    group: u8,
}

const NONE: u8 = 255;

fn fits(g: Group, r: Route) -> bool {
    match g {
        Group::Star(c) => r.low == c || r.high == c,
        Group::Triangle(a, b, c) => (r.low == a && (r.high == b || r.high == c)) || (r.low == b && r.high == c),
    }
}

struct Day<'a> {
    stations: u8,
    routes: Vec<Route>,
    groups: Vec<Group>,
    handovers: &'a [u8],
    questions: &'a [u8],
}

fn word(bytes: &[u8], at: usize) -> usize {
    u16::from_le_bytes([bytes[at], bytes[at + 1]]) as usize
}

fn parse(bytes: &[u8]) -> Result<Day<'_>, (u32, usize)> {
    if bytes.len() < 18 || bytes.len() > 8192 {
        return Err((1, 0));
    }
    let n = bytes[0];
    if n == 0 || n > 32 {
        return Err((4, 0));
    }
    if bytes[1] != 0 {
        return Err((4, 1));
    }
    let mut section: [&[u8]; 4] = [&[]; 4];
    let mut starts = [0; 4];
    let mut end = 18;
    for (k, (size, most)) in [(3, 496), (4, 32), (2, 1000), (4, 1000)].into_iter().enumerate() {
        let place = 2 + 4 * k;
        let (start, len) = (word(bytes, place), word(bytes, place + 2));
        if start < end || start + len > bytes.len() {
            return Err((2, place));
        }
        if len % size != 0 {
            return Err((3, place));
        }
        if len > most * size {
            return Err((4, place));
        }
        end = start + len;
        section[k] = &bytes[start..end];
        starts[k] = start;
    }
    let mut routes = Vec::with_capacity(496);
    let mut last = (0, 0);
    for (i, r) in section[0].chunks_exact(3).enumerate() {
        if r[0] >= r[1] || r[1] >= n || (i > 0 && last >= (r[0], r[1])) {
            return Err((5, starts[0] + 3 * i));
        }
        last = (r[0], r[1]);
        routes.push(Route { low: r[0], high: r[1], group: r[2] });
    }
    let mut groups = Vec::with_capacity(32);
    for (i, g) in section[1].chunks_exact(4).enumerate() {
        groups.push(match *g {
            [0, c, 0, 0] if c < n => Group::Star(c),
            [1, a, b, c] if a < b && b < c && c < n => Group::Triangle(a, b, c),
            _ => return Err((6, starts[1] + 4 * i)),
        });
    }
    let mut members = [0u16; 32];
    for (i, r) in routes.iter().enumerate() {
        let right = if groups.is_empty() { r.group == NONE } else { (r.group as usize) < groups.len() && fits(groups[r.group as usize], *r) };
        if !right {
            return Err((7, starts[0] + 3 * i));
        }
        if !groups.is_empty() {
            members[r.group as usize] += 1;
        }
    }
    for (k, g) in groups.iter().enumerate() {
        let wanted = if let Group::Star(_) = g { 1 } else { 3 };
        if members[k] < wanted {
            return Err((8, starts[1] + 4 * k));
        }
    }
    if groups.is_empty() {
        regroup(n, &mut routes, &mut groups);
    }
    Ok(Day { stations: n, routes, groups, handovers: section[2], questions: section[3] })
}

fn place(routes: &[Route], a: u8, b: u8) -> Option<usize> {
    routes.binary_search_by(|r| (r.low, r.high).cmp(&(a, b))).ok()
}

fn regroup(n: u8, routes: &mut [Route], groups: &mut Vec<Group>) {
    let mut degree = [0u16; 32];
    for r in routes.iter() {
        degree[r.low as usize] += 1;
        degree[r.high as usize] += 1;
    }
    let mut left = routes.len();
    let mut write = |routes: &mut [Route], degree: &mut [u16; 32], g: Group| {
        let k = groups.len() as u8;
        let mut taken = 0;
        for r in routes.iter_mut() {
            if r.group == NONE && fits(g, *r) {
                r.group = k;
                degree[r.low as usize] -= 1;
                degree[r.high as usize] -= 1;
                taken += 1;
            }
        }
        groups.push(g);
        taken
    };
    while left > 0 {
        while let Some(s) = (0..n).find(|s| degree[*s as usize] == 1) {
            let r = routes.iter().find(|r| r.group == NONE && (r.low == s || r.high == s)).unwrap();
            let centre = if r.low == s { r.high } else { r.low };
            left -= write(routes, &mut degree, Group::Star(centre));
        }
        'more: loop {
            for a in 0..n {
                for b in a + 1..n {
                    let thin = (degree[a as usize] == 2) as u8 + (degree[b as usize] == 2) as u8;
                    let open = |x, y| place(routes, x, y).is_some_and(|i| routes[i].group == NONE);
                    if thin == 0 || !open(a, b) {
                        continue;
                    }
                    for c in b + 1..n {
                        if thin + (degree[c as usize] == 2) as u8 >= 2 && open(a, c) && open(b, c) {
                            left -= write(routes, &mut degree, Group::Triangle(a, b, c));
                            continue 'more;
                        }
                    }
                }
            }
            break;
        }
        let mut best: Option<(u16, Route)> = None;
        for r in routes.iter().filter(|r| r.group == NONE) {
            let sum = degree[r.low as usize] + degree[r.high as usize];
            if best.map_or(true, |(most, _)| sum > most) {
                best = Some((sum, *r));
            }
        }
        if let Some((_, r)) = best {
            for end in [r.low, r.high] {
                if degree[end as usize] > 0 {
                    left -= write(routes, &mut degree, Group::Star(end));
                }
            }
        }
    }
}

fn number(out: &mut Vec<u8>, n: u32) {
    if n >= 10 {
        number(out, n / 10);
    }
    out.push(b'0' + (n % 10) as u8);
}

fn plan(out: &mut Vec<u8>, day: &Day) {
    out.extend_from_slice(b"stations ");
    number(out, day.stations as u32);
    out.extend_from_slice(b"\ncounts ");
    number(out, day.groups.len() as u32);
    out.push(b'\n');
    for (k, g) in day.groups.iter().enumerate() {
        out.extend_from_slice(b"count ");
        number(out, k as u32);
        match *g {
            Group::Star(c) => {
                out.extend_from_slice(b" star ");
                number(out, c as u32);
            }
            Group::Triangle(a, b, c) => {
                out.extend_from_slice(b" triangle ");
                number(out, a as u32);
                out.push(b' ');
                number(out, b as u32);
                out.push(b' ');
                number(out, c as u32);
            }
        }
        out.push(b':');
        for r in day.routes.iter().filter(|r| r.group as usize == k) {
            out.push(b' ');
            number(out, r.low as u32);
            out.push(b'-');
            number(out, r.high as u32);
        }
        out.push(b'\n');
    }
}

struct Row {
    dial: u8,
    stamp: [u16; 32],
}

fn sheet(out: &mut Vec<u8>, day: &Day) {
    let d = day.groups.len();
    let mut now = [[0u16; 32]; 32];
    let mut rows: Vec<Row> = Vec::with_capacity(1000);
    for h in day.handovers.chunks_exact(2) {
        let (giver, taker) = (h[0], h[1]);
        let reply = if giver >= day.stations || taker >= day.stations {
            Err(9)
        } else if giver == taker {
            Err(10)
        } else {
            place(&day.routes, giver.min(taker), giver.max(taker)).map(|i| day.routes[i].group).ok_or(11)
        };
        match reply {
            Ok(dial) => {
                let mut stamp = now[giver as usize];
                for k in 0..d {
                    stamp[k] = stamp[k].max(now[taker as usize][k]);
                }
                stamp[dial as usize] += 1;
                now[giver as usize] = stamp;
                now[taker as usize] = stamp;
                number(out, rows.len() as u32);
                out.push(b' ');
                number(out, giver as u32);
                out.push(b' ');
                number(out, taker as u32);
                for (k, count) in stamp[..d].iter().enumerate() {
                    out.push(if k == 0 { b' ' } else { b',' });
                    number(out, *count as u32);
                }
                rows.push(Row { dial, stamp });
            }
            Err(refusal) => {
                out.extend_from_slice(b"- ");
                number(out, giver as u32);
                out.push(b' ');
                number(out, taker as u32);
                out.extend_from_slice(b" refused ");
                number(out, refusal);
            }
        }
        out.push(b'\n');
    }
    for q in day.questions.chunks_exact(4) {
        let (a, b) = (word(q, 0), word(q, 2));
        number(out, a as u32);
        out.push(b' ');
        number(out, b as u32);
        let tells = |x: &Row, y: &Row| x.stamp[x.dial as usize] <= y.stamp[x.dial as usize];
        out.extend_from_slice(match (rows.get(a), rows.get(b)) {
            (Some(_), Some(_)) if a == b => b" same".as_slice(),
            (Some(x), Some(y)) if tells(x, y) => b" before",
            (Some(x), Some(y)) if tells(y, x) => b" after",
            (Some(_), Some(_)) => b" beside",
            _ => b" refused 15",
        });
        out.push(b'\n');
    }
}

fn main() -> std::io::Result<()> {
    let mut bytes = Vec::with_capacity(8193);
    std::io::stdin().lock().take(8193).read_to_end(&mut bytes)?;
    let mut out = Vec::with_capacity(1 << 18);
    match parse(&bytes) {
        Err((refusal, at)) => {
            out.extend_from_slice(b"refused ");
            number(&mut out, refusal);
            out.extend_from_slice(b" at ");
            number(&mut out, at as u32);
            out.push(b'\n');
        }
        Ok(day) => match std::env::args().nth(1).as_deref() {
            Some("sheet") => sheet(&mut out, &day),
            _ => plan(&mut out, &day),
        },
    }
    std::io::stdout().lock().write_all(&out)
}
