//! The program weigh: 100,000 bags asked for line by line, beside a plain Rust reader; and a season of 100,000 bags.
use crate::clock::median;
use crate::engines::Rooms;
use crate::families::Random;
use crate::ring::Ring;
use crate::{proved, twin_table};
use std::fmt::Write as _;
use std::io::Write as _;
use std::process::{Command, Stdio};
use std::time::Instant;

fn listed(numbers: &[u32]) -> String {
    numbers.iter().map(u32::to_string).collect::<Vec<_>>().join(" ")
}

/// 24 pans, and after each bag a handful into each opened pan.
fn lines(bags: usize, rooms: &mut Rooms) -> String {
    let mut x = Random(7);
    let mut ring = Ring { rule: [100, 10, 6, 1_000_000], weights: (0..24).map(|_| x.handful()).collect(), ages: vec![0; 24] };
    let mut text = format!("rule {}\npans {}\nages {}\n", listed(&ring.rule), listed(&ring.weights), listed(&ring.ages));
    for _ in 0..bags {
        text.push_str("bag\n");
        let (opened, _) = twin_table::best(&ring, &mut rooms.bytes).expect("a bag");
        for i in 0..24 {
            if opened >> i & 1 == 1 {
                ring.weights[i] = x.handful();
                writeln!(text, "fall {i} {}", ring.weights[i]).unwrap();
            }
        }
    }
    text
}

/// Milliseconds that a program takes for a file of lines, and what it prints.
fn run(program: &str, args: &[&str], input: &str) -> (f64, Vec<u8>) {
    let from = Instant::now();
    let file = std::fs::File::open(input).expect("the lines");
    let out = Command::new(program).args(args).stdin(Stdio::from(file)).output().expect("a program");
    let took = from.elapsed().as_secs_f64() * 1e3;
    assert!(out.status.success(), "{program} failed");
    (took, out.stdout)
}

pub fn compare(weigh: &str, rooms: &mut Rooms) {
    let here = std::env::current_exe().unwrap();
    let here = here.to_str().unwrap();
    let path = std::env::temp_dir().join(format!("bench-lines-{}", std::process::id()));
    let path = path.to_str().unwrap();
    let text = lines(100_000, rooms);
    std::fs::File::create(path).unwrap().write_all(text.as_bytes()).unwrap();
    let (mut ours, mut plain) = (Vec::new(), Vec::new());
    for _ in 0..9 {
        let (took, said) = run(weigh, &[], path);
        let (beside, also) = run(here, &["read"], path);
        assert!(said == also, "the program and the plain reader differ");
        ours.push(took);
        plain.push(beside);
    }
    let (ours, plain) = (median(&mut ours), median(&mut plain));
    let count = text.lines().count();
    println!("\n## The program\n");
    println!("100,000 `bag` lines with `fall` lines in between ({count} lines): weigh {ours:.0} ms, a plain Rust reader {plain:.0} ms, ratio {:.2} (same output).", ours / plain);

    let mut x = Random(11);
    let handfuls: Vec<u32> = (0..300).map(|_| x.handful()).collect();
    let ring = Ring { rule: [100, 10, 6, 1_000_000], weights: (0..24).map(|_| x.handful()).collect(), ages: vec![0; 24] };
    let text = format!("rule {}\npans {}\nages {}\nhandfuls {}\nbags 100000\n", listed(&ring.rule), listed(&ring.weights), listed(&ring.ages), listed(&handfuls));
    std::fs::write(path, text).unwrap();
    let mut took = Vec::new();
    let mut said = Vec::new();
    for _ in 0..9 {
        let (ms, out) = run(weigh, &[], path);
        took.push(ms);
        said = out;
    }
    std::fs::remove_file(path).unwrap();
    let mut library = Vec::new();
    let mut play = || {
        let mut ring = ring.clone();
        let from = Instant::now();
        let told = proved::season(&mut ring, &handfuls, 100_000, &mut rooms.entries, &mut rooms.bytes[..1 << 20]);
        library.push(from.elapsed().as_secs_f64() * 1e3);
        told
    };
    let told = play();
    (0..8).for_each(|_| assert!(play() == told));
    let line = format!("bags {}: {}, {} given away", told.bags, told.weight, told.given_away);
    let said = String::from_utf8(said).unwrap();
    assert!(said.trim_end().starts_with(&line), "{said} is not {line}");
    println!("\nA season of 100,000 bags, 24 pans, rule 100 10 6 1000000: weigh {:.0} ms, the library {:.0} ms (`{}`).", median(&mut took), median(&mut library), said.trim_end());
}
