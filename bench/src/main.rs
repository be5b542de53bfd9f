//! Measures the proved engines beside all choices tried, beside unproved Rust solvers of the same ideas and, where they are
//! installed, beside outside solvers: the same rings, one run, all answers compared.
mod clock;
mod crossover;
mod engines;
mod families;
mod gray;
mod proved;
mod reader;
mod ring;
mod solvers;
mod texts;
mod twin_halves;
mod twin_table;

use clock::Ticks;
use engines::{ENGINES, Engine, Rooms, Timed};
use families::{Family, Random};

/// Compares all answers, ring by ring; ends the run where two differ.
fn agree(family: &Family, timed: &[Timed]) -> usize {
    let longest = timed.iter().max_by_key(|t| t.answers.len()).unwrap();
    for (engine, t) in ENGINES.iter().zip(timed) {
        for (i, answer) in t.answers.iter().enumerate() {
            if *answer != longest.answers[i] {
                let ring = &family.rings[i];
                panic!("{}: {} says {answer:?}, another {:?} of {:?} {:?} {:?}", family.name, engine.name(), longest.answers[i], ring.rule, ring.weights, ring.ages);
            }
        }
    }
    timed.iter().map(|t| t.answers.len()).sum()
}

pub fn micros(x: f64) -> String {
    match x {
        x if x >= 1000.0 => format!("{x:.0}"),
        x if x >= 10.0 => format!("{x:.1}"),
        x => format!("{x:.3}"),
    }
}

fn times(x: f64) -> String {
    if x >= 10.0 { format!("{x:.0}") } else { format!("{x:.1}") }
}

fn said(reached: bool) -> &'static str {
    if reached { "" } else { " MISSED" }
}

fn main() {
    let args: Vec<String> = std::env::args().collect();
    if args.get(1).map(String::as_str) == Some("read") {
        return reader::run();
    }
    let weigh = args.get(1).expect("the program weigh").clone();
    let picture = args.get(2).expect("where the picture goes").clone();
    let ticks = Ticks::new();
    let mut rooms = Rooms::new();
    let mut x = Random(2026);
    let mut all = families::all(&mut x);
    for pans in [14, 24] {
        let mut best = |r: &ring::Ring| rooms.best(Engine::TableTwin, r);
        all.push(families::season(&mut x, pans, 10_000, &mut best));
    }

    let mut rows = Vec::new();
    let mut compared = 0;
    for family in &all {
        let timed: Vec<Timed> = ENGINES
            .iter()
            .map(|e| {
                let budget = if matches!(e, Engine::AllTried | Engine::Plain) { 1e5 } else { 6e5 };
                engines::time(*e, &family.rings, &mut rooms, &ticks, budget)
            })
            .collect();
        compared += agree(family, &timed);
        rows.push(timed);
    }

    println!("## Microseconds a bag: median / worst\n");
    println!("| family | {} |", ENGINES.map(Engine::name).join(" | "));
    println!("|---|{}", "---|".repeat(ENGINES.len()));
    for (family, timed) in all.iter().zip(&rows) {
        let cells: Vec<String> = timed.iter().map(|t| format!("{} / {}", micros(t.median), micros(t.worst))).collect();
        println!("| {} | {} |", family.name, cells.join(" | "));
    }
    println!("\nAll engines agreed, pans and weight, on every ring: {compared} answers compared.");

    println!("\n## How many times less than all tried\n");
    println!("The median of all tried over an engine's median, and over an engine's worst; in brackets beside the walk that is written plainly. And proved over its Rust twin, medians.\n");
    println!("| family | scan median | scan worst | halves median | halves worst | halves / Rust | table median | table worst | table / Rust |");
    println!("|---|---|---|---|---|---|---|---|---|");
    for (family, t) in all.iter().zip(&rows) {
        let full = family.pans == 24;
        let against = |took: f64, wanted: f64| {
            let (tuned, plain) = (t[0].median / took, t[1].median / took);
            format!("{} ({}){}", times(tuned), times(plain), said(tuned >= wanted))
        };
        let scan = if family.name == "24 pans, 5..60, target 100, at most 4" { 50.0 } else { 0.0 };
        let (median, worst) = if full { (150.0, 60.0) } else { (0.0, 0.0) };
        let (halves, table) = (t[3].median / t[4].median, t[5].median / t[6].median);
        println!(
            "| {} | {} | {} | {} | {} | {halves:.2}{} | {} | {} | {table:.2}{} |",
            family.name,
            against(t[2].median, scan), against(t[2].worst, 0.0),
            against(t[3].median, median), against(t[3].worst, worst), said(halves <= 2.0),
            against(t[5].median, family.table_wanted), against(t[5].worst, 0.0), said(table <= 2.0),
        );
    }
    let halves: Vec<f64> = rows.iter().map(|timed| timed[3].median).collect();
    solvers::compare(&all, &halves, &mut rooms);
    texts::compare(&weigh, &mut rooms);
    crossover::measure(&picture, &mut rooms, &ticks);
}
