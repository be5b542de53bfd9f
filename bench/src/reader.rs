//! A plain Rust program that reads the same commands and prints the same answers, with the unproved table deciding.
use crate::ring::Ring;
use crate::twin_table;
use std::io::{BufRead, BufWriter, Write};

/// A number written in one way: digits that don't begin with a 0, or 0 itself.
fn number(word: &[u8]) -> Option<u32> {
    if word.is_empty() || (word.len() > 1 && word[0] == b'0') {
        return None;
    }
    word.iter().try_fold(0u32, |made, d| if d.is_ascii_digit() { made.checked_mul(10)?.checked_add((d - b'0') as u32) } else { None })
}

fn numbers(line: &[u8]) -> Option<Vec<u32>> {
    line.split(|b| *b == b' ').map(number).collect()
}

pub fn run() {
    let mut out = BufWriter::new(std::io::stdout().lock());
    let mut room = vec![0u8; 1 << 20];
    let mut ring = Ring { rule: [0; 4], weights: vec![], ages: vec![] };
    let mut input = std::io::stdin().lock();
    let mut line = Vec::new();
    let mut at = 0u64;
    loop {
        line.clear();
        if input.read_until(b'\n', &mut line).unwrap() == 0 {
            break;
        }
        if line.last() == Some(&b'\n') {
            line.pop();
        }
        if !obey(&line, &mut ring, &mut room, &mut out) {
            writeln!(out, "refused 4 at {at}").unwrap();
        }
        at += 1;
    }
    out.flush().unwrap();
}

fn obey(line: &[u8], ring: &mut Ring, room: &mut [u8], out: &mut impl Write) -> bool {
    let (word, rest) = match line.iter().position(|b| *b == b' ') {
        Some(i) => (&line[..i], numbers(&line[i + 1..])),
        None => (line, Some(vec![])),
    };
    let Some(rest) = rest else { return false };
    match (word, rest.as_slice()) {
        (b"rule", [t, a, p, o]) => ring.rule = [*t, *a, *p, *o],
        (b"pans", _) => ring.weights = rest,
        (b"ages", _) => ring.ages = rest,
        (b"bag", []) => bag(ring, room, out),
        (b"fall", [p, w]) => match ring.weights.get_mut(*p as usize) {
            Some(pan) if *pan == 0 => *pan = *w,
            _ => return false,
        },
        _ => return false,
    }
    true
}

fn bag(ring: &mut Ring, room: &mut [u8], out: &mut impl Write) {
    let Some((opened, weight)) = twin_table::best(ring, room) else {
        writeln!(out, "none").unwrap();
        return;
    };
    write!(out, "open").unwrap();
    for i in 0..ring.weights.len() {
        ring.ages[i] += 1;
        if opened >> i & 1 == 1 {
            write!(out, " {i}").unwrap();
            ring.weights[i] = 0;
            ring.ages[i] = 0;
        }
    }
    writeln!(out, ": {weight}").unwrap();
}
