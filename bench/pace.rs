//! Plain optimised Rust that does what the program `pace` does, for the comparison of speed alone.
struct Row {
    giver: u8,
    taker: u8,
    stamp: [u16; 32],
}

struct Floor {
    stations: u8,
    rows: Vec<Row>,
    now: [[u16; 32]; 32],
    busy: [bool; 32],
}

impl Floor {
    fn hand(&mut self, giver: u8, taker: u8) -> Option<u16> {
        let (g, t, d) = (giver as usize, taker as usize, self.stations as usize);
        if giver >= self.stations || taker >= self.stations || g == t || self.busy[g] || self.busy[t] || self.rows.len() >= 1000 {
            return None;
        }
        let mut stamp = self.now[g];
        for k in 0..d {
            stamp[k] = stamp[k].max(self.now[t][k]);
        }
        stamp[g] += 1;
        stamp[t] += 1;
        self.now[g] = stamp;
        self.now[t] = stamp;
        self.rows.push(Row { giver, taker, stamp });
        Some(self.rows.len() as u16 - 1)
    }

    fn is_before(&self, a: u16, b: u16) -> bool {
        let (x, y) = (&self.rows[a as usize], &self.rows[b as usize]);
        let k = x.giver.min(x.taker) as usize;
        a < b && x.stamp[k] <= y.stamp[k]
    }
}

fn main() {
    let n: Vec<u32> = std::env::args().skip(1).map(|w| w.parse().expect("a number")).collect();
    let stations = (n[0] & 63) as u8;
    let mut floor = Floor { stations, rows: Vec::with_capacity(1000), now: [[0; 32]; 32], busy: [false; 32] };
    let mut settled = 0u32;
    let mut giver = 0u8;
    for _ in 0..n[1] {
        let taker = if giver + 1 < stations { giver + 1 } else { 0 };
        settled += floor.hand(giver, taker).is_some() as u32;
        giver = taker;
    }
    let mut before = 0u32;
    let mut a = 0u32;
    for i in 0..n[2] {
        a = a.wrapping_mul(31).wrapping_add(i) & 1023;
        let b = (a ^ i) & 1023;
        if a < settled && b < settled && floor.is_before(a as u16, b as u16) {
            before += 1;
        }
    }
    println!("{settled} settled, {before} before");
}
