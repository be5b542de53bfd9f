//! The engines side by side, each timed over the same rings.
use crate::clock::{Ticks, median, thread_micros};
use crate::ring::{Answer, Ring};
use crate::{gray, proved, twin_halves, twin_table};

#[derive(Clone, Copy, PartialEq)]
pub enum Engine {
    AllTried,
    Plain,
    Scan,
    Halves,
    HalvesTwin,
    Table,
    TableTwin,
}

pub const ENGINES: [Engine; 7] =
    [Engine::AllTried, Engine::Plain, Engine::Scan, Engine::Halves, Engine::HalvesTwin, Engine::Table, Engine::TableTwin];

impl Engine {
    pub fn name(self) -> &'static str {
        match self {
            Engine::AllTried => "all tried",
            Engine::Plain => "all tried, plainly",
            Engine::Scan => "scan",
            Engine::Halves => "halves",
            Engine::HalvesTwin => "halves, Rust",
            Engine::Table => "table",
            Engine::TableTwin => "table, Rust",
        }
    }
}

pub struct Rooms {
    pub entries: Vec<u64>,
    pub bytes: Vec<u8>,
    pub twin: twin_halves::Room,
}

impl Rooms {
    pub fn new() -> Rooms {
        Rooms { entries: vec![0; 4096], bytes: vec![0; 26 * 2_000_100], twin: twin_halves::Room::new() }
    }

    #[inline(always)]
    pub fn best(&mut self, engine: Engine, ring: &Ring) -> Answer {
        match engine {
            Engine::AllTried => gray::best(ring),
            Engine::Plain => gray::plain(ring),
            Engine::Scan => proved::scan(ring),
            Engine::Halves => proved::halves(ring, &mut self.entries),
            Engine::HalvesTwin => twin_halves::best(ring, &mut self.twin),
            Engine::Table => proved::table(ring, &mut self.bytes),
            Engine::TableTwin => twin_table::best(ring, &mut self.bytes),
        }
    }
}

/// How an engine did over a family: microseconds a bag, and what it answered for each ring that it was asked for.
pub struct Timed {
    pub median: f64,
    pub worst: f64,
    pub answers: Vec<Answer>,
}

const PASSES: usize = 9;

/// Every ring once in each pass, so that no ring is asked for twice in a row; a ring's time is the median of its passes.
/// An engine that is slow is asked for fewer rings, and the slowest by the thread's own time.
pub fn time(engine: Engine, rings: &[Ring], rooms: &mut Rooms, ticks: &Ticks, budget: f64) -> Timed {
    let probe = rings[0].clone();
    let once = { let from = thread_micros(); std::hint::black_box(rooms.best(engine, &probe)); thread_micros() - from };
    let count = ((budget / once / PASSES as f64) as usize).clamp(5, rings.len());
    let slow = once > 2000.0;
    let passes = if slow { 3 } else { PASSES };
    let rings = &rings[..count];
    let mut times = vec![Vec::with_capacity(passes); count];
    let mut answers = vec![None; count];
    for _ in 0..passes {
        for (i, ring) in rings.iter().enumerate() {
            let mut answer = None;
            let took = if slow {
                let from = thread_micros();
                answer = rooms.best(engine, ring);
                thread_micros() - from
            } else {
                ticks.micros(|| answer = std::hint::black_box(rooms.best(engine, std::hint::black_box(ring))))
            };
            times[i].push(took);
            answers[i] = answer;
        }
    }
    let mut each: Vec<f64> = times.iter_mut().map(|t| median(t)).collect();
    let middle = median(&mut each);
    Timed { median: middle, worst: each[each.len() - 1], answers }
}
