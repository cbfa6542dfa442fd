//! Writes the largest day file on standard output: the complete floor of 32 stations with its groups built, 1,000 handovers
//! and 1,000 questions from a fixed seed.
// only the making of sound files is used of the two modules
#![allow(dead_code)]

mod days;
mod model;

use std::io::Write;

fn main() {
    let mut seed = days::Seed(0x9E37_79B9_7F4A_7C15);
    let mut parts = days::sound(&mut seed, 0, false, 1000);
    while parts.stations < 32 {
        parts = days::sound(&mut seed, 0, false, 1000);
    }
    std::io::stdout().write_all(&days::bytes(&parts, &mut seed)).expect("the file is written");
}
