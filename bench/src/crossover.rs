//! Where the table is faster than the halves: microseconds a bag over the target, as a table and as a picture.
use crate::clock::Ticks;
use crate::engines::{Engine, Rooms, time};
use crate::families::Random;
use crate::micros;
use crate::ring::Ring;
use std::fmt::Write;

const TARGETS: [u32; 10] = [100, 200, 500, 1000, 2000, 5000, 10_000, 20_000, 50_000, 100_000];

/// Weights of 5 to 60 hundredths of the target, a tenth above, any count.
fn rings(x: &mut Random, pans: usize, target: u32) -> Vec<Ring> {
    let scale = target / 100;
    (0..400).map(|_| Ring::young(target, target / 10, 24, x.weights(pans, 5 * scale, 60 * scale))).collect()
}

pub fn measure(picture: &str, rooms: &mut Rooms, ticks: &Ticks) {
    println!("\n## The crossover: 24 pans, microseconds a bag (medians) over the target\n");
    println!("Weights of 5 to 60 hundredths of the target, a tenth above, any count.\n");
    let shown = [Engine::AllTried, Engine::Scan, Engine::Halves, Engine::Table];
    println!("| target | bytes of the table | {} |", shown.map(Engine::name).join(" | "));
    println!("|---|---|---|---|---|---|");
    let mut lines = vec![Vec::new(); shown.len()];
    let mut x = Random(5);
    for target in TARGETS {
        let rings = rings(&mut x, 24, target);
        let mut cells = Vec::new();
        for (k, engine) in shown.into_iter().enumerate() {
            let t = time(engine, &rings, rooms, ticks, 3e5).median;
            lines[k].push((target as f64, t));
            cells.push(micros(t));
        }
        println!("| {target} | {} | {} |", rings[0].table_bytes(), cells.join(" | "));
    }
    std::fs::write(picture, drawn(&shown, &lines)).expect("the picture");
    by_pans(rooms, ticks, &mut x);
}

/// For each number of pans and for targets of so much of everything, from which table on the halves are the faster way.
fn by_pans(rooms: &mut Rooms, ticks: &Ticks, x: &mut Random) {
    println!("\n## The size rule: the first table that takes longer than the halves, in bytes (and bytes for each entry of both halves)\n");
    println!("| pans | entries of both halves | target an 8th of everything | a 6th | a 4th | a 3rd | half |");
    println!("|---|---|---|---|---|---|---|");
    for pans in [8, 12, 16, 20, 22, 24usize] {
        let entries = 2usize << ((pans - 1) / 2);
        let cells = [8, 6, 4, 3, 2].map(|share| match crossing(pans, share, rooms, ticks, x) {
            Some(bytes) => format!("{bytes} ({:.0})", bytes as f64 / entries as f64),
            None => "none".into(),
        });
        println!("| {pans} | {entries} | {} |", cells.join(" | "));
    }
}

/// The bytes of the first table, with ever heavier pans, that takes longer than the halves.
fn crossing(pans: usize, share: u32, rooms: &mut Rooms, ticks: &Ticks, x: &mut Random) -> Option<usize> {
    let mut scale = 4.0f64;
    while scale < 80_000.0 {
        let most = (scale * 60.0 / 32.5) as u32;
        let rings: Vec<Ring> = (0..60)
            .map(|_| {
                let weights = x.weights(pans, (most / 12).max(1), most);
                let target = (weights.iter().sum::<u32>() / share).clamp(1, 1_000_000);
                Ring::young(target, target / 10, 24, weights)
            })
            .collect();
        let halves = time(Engine::Halves, &rings, rooms, ticks, 2e4).median;
        let table = time(Engine::Table, &rings, rooms, ticks, 2e4).median;
        if table > halves {
            let mut bytes: Vec<usize> = rings.iter().map(Ring::table_bytes).collect();
            bytes.sort();
            return Some(bytes[bytes.len() / 2]);
        }
        scale *= 1.2;
    }
    None
}

/// A picture with logarithmic axes: a line for each engine.
fn drawn(shown: &[Engine], lines: &[Vec<(f64, f64)>]) -> String {
    let (left, top, wide, high) = (80.0, 50.0, 620.0, 400.0);
    let at = |target: f64, took: f64| (left + wide * (target.log10() - 2.0) / 3.0, top + high * (6.0 - took.log10()) / 7.0);
    let mut svg = String::from("<svg xmlns=\"http://www.w3.org/2000/svg\" viewBox=\"0 0 840 520\" font-family=\"sans-serif\" font-size=\"13\">\n");
    svg.push_str("<rect width=\"840\" height=\"520\" fill=\"white\"/>\n<text x=\"390\" y=\"26\" text-anchor=\"middle\" font-size=\"16\">24 pans: microseconds a bag over the target</text>\n");
    for power in -1..=6 {
        let (_, y) = at(100.0, 10f64.powi(power));
        let label = if power < 0 { "0.1".into() } else { format!("{}", 10u64.pow(power as u32)) };
        writeln!(svg, "<path d=\"M{left} {y:.1}h{wide}\" stroke=\"#ddd\"/><text x=\"{:.0}\" y=\"{:.1}\" text-anchor=\"end\">{label}</text>", left - 8.0, y + 4.0).unwrap();
    }
    for power in 2..=5u32 {
        let (x, _) = at(10f64.powi(power as i32), 1.0);
        writeln!(svg, "<path d=\"M{x:.1} {top}v{high}\" stroke=\"#ddd\"/><text x=\"{x:.1}\" y=\"{:.0}\" text-anchor=\"middle\">{}</text>", top + high + 20.0, 10u64.pow(power)).unwrap();
    }
    svg.push_str("<text x=\"390\" y=\"500\" text-anchor=\"middle\">target (weights of 5 to 60 hundredths of it, a tenth above)</text>\n");
    svg.push_str("<text x=\"22\" y=\"250\" text-anchor=\"middle\" transform=\"rotate(-90 22 250)\">microseconds a bag</text>\n");
    for ((engine, line), colour) in shown.iter().zip(lines).zip(["#444", "#c33", "#27c", "#292"]) {
        let points: Vec<String> = line.iter().map(|(t, m)| { let (x, y) = at(*t, *m); format!("{x:.1},{y:.1}") }).collect();
        writeln!(svg, "<polyline points=\"{}\" fill=\"none\" stroke=\"{colour}\" stroke-width=\"2\"/>", points.join(" ")).unwrap();
        let (t, m) = line[line.len() - 1];
        let (x, y) = at(t, m);
        writeln!(svg, "<text x=\"{:.1}\" y=\"{:.1}\" fill=\"{colour}\">{}</text>", x + 8.0, y + 4.0, engine.name()).unwrap();
    }
    svg.push_str("</svg>\n");
    svg
}
