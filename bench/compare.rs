//! Compares a proved program with the model, byte for byte, on day files of all shapes made from a fixed seed.
//! Usage: compare plan|sheet PROGRAM COUNT
mod days;
mod model;

use std::io::Write;
use std::process::{Command, Stdio};

fn run(program: &str, file: &[u8]) -> Vec<u8> {
    let mut child = Command::new(program)
        .stdin(Stdio::piped())
        .stdout(Stdio::piped())
        .stderr(Stdio::null())
        .spawn()
        .expect("the program starts");
    // a program may stop reading a file that is too long
    let _ = child.stdin.take().expect("its input is open").write_all(file);
    let out = child.wait_with_output().expect("the program ends");
    assert!(out.status.success(), "the program ended with {}", out.status);
    out.stdout
}

fn main() {
    let args: Vec<String> = std::env::args().collect();
    let text: fn(&[u8]) -> String = match args[1].as_str() {
        "plan" => model::plan_text,
        "sheet" => model::sheet_text,
        other => panic!("plan or sheet, not {other}"),
    };
    let count: usize = args[3].parse().expect("a number of files");
    let mut seed = days::Seed(0x9E37_79B9_7F4A_7C15);
    let mut replies = [0usize; 9];
    for i in 0..count {
        let many = match i % 50 {
            0 => 1000,
            k => k % 13,
        };
        let mut parts = days::sound(&mut seed, i % 6, i % 2 == 0, many);
        if i % 5 == 2 {
            days::damage_tables(&mut parts, &mut seed);
        }
        let mut file = days::bytes(&parts, &mut seed);
        if i % 5 > 2 {
            days::damage_bytes(&mut file, &mut seed);
        }
        let expected = text(&file);
        match expected.strip_prefix("refused ").and_then(|rest| rest.split(' ').next()).and_then(|n| n.parse::<usize>().ok()) {
            Some(number) => replies[number] += 1,
            None => replies[0] += 1,
        }
        let got = run(&args[2], &file);
        if got != expected.as_bytes() {
            let name = std::env::temp_dir().join("differs.day");
            std::fs::write(&name, &file).expect("the file is kept");
            println!("file {i} differs; it is kept as {}", name.display());
            println!("the program:\n{}the model:\n{expected}", String::from_utf8_lossy(&got));
            std::process::exit(1);
        }
    }
    println!("{count} files compared: {} accepted; refused by 1 to 8: {:?}", replies[0], &replies[1..]);
    assert!(replies.iter().all(|n| *n > 0), "some reply never came");
}
