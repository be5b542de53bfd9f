//! What the best choice saves: seasons of bags by the proved library beside the best of some random tries, on the same handfuls.
//!
//!     seasons [BAGS [SEED [AGE]]]
//!
//! Handfuls of around 25 units come from a list that is drawn once, in tenths of a unit. It is played twice: as a scale shows it
//! that weighs to the unit, and to the tenth. Each machine takes its handfuls from the list's start, one after another. Its season
//! goes on for so many bags. Where no choice is left for a bag, since too many pans have grown old at once, all pans are emptied
//! and filled anew from the list, with every age 0; the bags made so far count, and how often this came is told.
#![allow(dead_code)]

mod families;
mod proved;
mod ring;

use families::Random;
use proved::Told;
use ring::Ring;
use std::sync::Mutex;

const PANS: [usize; 4] = [10, 14, 20, 24];
const TRIES: [u32; 3] = [10, 200, 2000];
/// The blocks of a season whose means tell the error of its own: bags behind each other are no independent ones.
const BLOCKS: usize = 20;

/// A machine that opens the best choice, as the proved season does, or the best that it happens to try.
#[derive(Clone, Copy)]
enum Machine {
    Best,
    Tries(u32),
}

/// What a season came to: what was given away per bag, how often it began anew, and in how many bags no try was a choice.
struct Outcome {
    given_away: Vec<u32>,
    anew: usize,
    helped: usize,
}

struct Rooms {
    entries: Vec<u64>,
    bytes: Vec<u8>,
}

impl Rooms {
    fn new() -> Rooms {
        Rooms { entries: vec![0; 4096], bytes: vec![0; 1 << 20] }
    }
}

/// The pans to open by one try: the old ones, and then others in random order until there is enough. `None` where that is no
/// choice by the rule.
fn one_try(ring: &Ring, order: &mut [usize], x: &mut Random) -> Option<(u32, u32)> {
    let [target, above, most, _] = ring.rule;
    let (mut opened, mut weight) = (ring.old(), 0);
    for (pan, w) in ring.weights.iter().enumerate() {
        weight += if opened >> pan & 1 == 1 { *w } else { 0 };
    }
    for i in 0..order.len() {
        if weight >= target || weight > target + above || opened.count_ones() >= most {
            break;
        }
        let j = x.within(i as u32, order.len() as u32 - 1) as usize;
        order.swap(i, j);
        if opened >> order[i] & 1 == 0 {
            opened |= 1 << order[i];
            weight += ring.weights[order[i]];
        }
    }
    let fits = (target..=target + above).contains(&weight) && opened.count_ones() <= most && opened & ring.empty() == 0;
    fits.then_some((opened, weight))
}

fn lightest_try(ring: &Ring, tries: u32, order: &mut [usize], x: &mut Random) -> Option<(u32, u32)> {
    (0..tries).filter_map(|_| one_try(ring, order, x)).min_by_key(|(_, weight)| *weight)
}

/// A bag by the proved season of one bag, which empties the pans and lets the next handfuls fall; how many fell, or `None`.
fn best_bag(ring: &mut Ring, handfuls: &[u32], rooms: &mut Rooms) -> Option<(u32, usize)> {
    let next = &handfuls[..ring.weights.len()];
    let Told { refusal, bags, weight, .. } = proved::season(ring, next, 1, &mut rooms.entries, &mut rooms.bytes);
    assert_eq!(refusal, 0, "no ring here is refused");
    let opened = ring.ages.iter().filter(|age| **age == 0).count();
    (bags == 1).then_some((weight as u32, opened))
}

/// A bag of the pans that the tries found, with the pans emptied and filled as the proved season does it.
fn tried_bag(ring: &mut Ring, handfuls: &[u32], opened: u32, weight: u32) -> (u32, usize) {
    let mut fallen = 0;
    for pan in 0..ring.weights.len() {
        ring.ages[pan] += 1;
        if opened >> pan & 1 == 1 {
            ring.weights[pan] = handfuls[fallen];
            ring.ages[pan] = 0;
            fallen += 1;
        }
    }
    (weight, fallen)
}

fn season(machine: Machine, rule: [u32; 4], pans: usize, handfuls: &[u32], bags: usize, seed: u64) -> Outcome {
    let (mut rooms, mut x, mut order) = (Rooms::new(), Random(seed), (0..pans).collect::<Vec<_>>());
    let mut outcome = Outcome { given_away: Vec::new(), anew: 0, helped: 0 };
    let mut used = pans;
    let mut ring = Ring { rule, weights: handfuls[..pans].to_vec(), ages: vec![0; pans] };
    while outcome.given_away.len() < bags {
        let next = &handfuls[used..];
        let tried = match machine {
            Machine::Best => None,
            Machine::Tries(tries) => lightest_try(&ring, tries, &mut order, &mut x),
        };
        let made = match tried {
            Some((opened, weight)) => Some(tried_bag(&mut ring, next, opened, weight)),
            None => best_bag(&mut ring, next, &mut rooms),
        };
        match made {
            Some((weight, fallen)) => {
                outcome.helped += (tried.is_none() && matches!(machine, Machine::Tries(_))) as usize;
                outcome.given_away.push(weight - rule[0]);
                used += fallen;
            }
            None => {
                outcome.anew += 1;
                ring = Ring { rule, weights: next[..pans].to_vec(), ages: vec![0; pans] };
                used += pans;
            }
        }
    }
    outcome
}

/// The mean, and its standard error from the means of blocks.
fn mean(given_away: &[u32]) -> (f64, f64) {
    let average = |part: &[u32]| part.iter().map(|g| *g as f64).sum::<f64>() / part.len() as f64;
    let whole = average(given_away);
    let blocks: Vec<f64> = given_away.chunks_exact((given_away.len() / BLOCKS).max(1)).map(average).collect();
    let spread = blocks.iter().map(|b| (b - whole).powi(2)).sum::<f64>() / (blocks.len().max(2) - 1) as f64;
    (whole, (spread / blocks.len() as f64).sqrt())
}

/// One season to play: which scale, how many pans, which machine.
type Task = (u32, usize, Machine);

fn played(tasks: &[Task], handfuls: &[u32], bags: usize, seed: u64, age: u32) -> Vec<Outcome> {
    let (next, done) = (Mutex::new(0), Mutex::new(tasks.iter().map(|_| None).collect::<Vec<_>>()));
    let units: Vec<u32> = handfuls.iter().map(|tenths| (tenths + 5) / 10).collect();
    std::thread::scope(|scope| {
        for _ in 0..std::thread::available_parallelism().map_or(1, |n| n.get()) {
            scope.spawn(|| {
                loop {
                    let at = {
                        let mut next = next.lock().unwrap();
                        *next += 1;
                        *next - 1
                    };
                    let Some((parts, pans, machine)) = tasks.get(at) else { break };
                    let list = if *parts == 1 { &units } else { handfuls };
                    let outcome = season(*machine, [100 * parts, 10 * parts, 6, age], *pans, list, bags, seed + at as u64);
                    done.lock().unwrap()[at] = Some(outcome);
                }
            });
        }
    });
    done.into_inner().unwrap().into_iter().map(|it| it.expect("each season is played")).collect()
}

fn show(parts: u32, outcomes: &[Outcome], bags: usize) {
    let name = if parts == 1 { "the unit" } else { "a tenth of a unit" };
    println!("\nWeighed to {name}: given away per bag, in units\n");
    println!("| pans | best | best of {} tries | of {} | of {} |", TRIES[0], TRIES[1], TRIES[2]);
    println!("|---|---|---|---|---|");
    let machines = TRIES.len() + 1;
    for (pans, row) in PANS.iter().zip(outcomes.chunks(machines)) {
        let cell = |o: &Outcome| {
            let (mean, error) = mean(&o.given_away);
            format!("{:.4} ± {:.4}", mean / parts as f64, error / parts as f64)
        };
        println!("| {pans} | {} |", row.iter().map(cell).collect::<Vec<_>>().join(" | "));
    }
    println!("\nHow often no choice was left, so that the ring was emptied and filled anew; and the share of bags for which no try was a choice\nthough there was one, and which were then made by the best\n");
    println!("| pans | best | best of {} tries | of {} | of {} |", TRIES[0], TRIES[1], TRIES[2]);
    println!("|---|---|---|---|---|");
    for (pans, row) in PANS.iter().zip(outcomes.chunks(machines)) {
        let cell = |o: &Outcome| format!("{}; {:.2} %", o.anew, 100.0 * o.helped as f64 / bags as f64);
        let tries: Vec<_> = row[1..].iter().map(cell).collect();
        println!("| {pans} | {} | {} |", row[0].anew, tries.join(" | "));
    }
}

fn main() {
    let mut words = std::env::args().skip(1).map(|word| word.parse::<u64>().expect("a number"));
    let (bags, seed, age) = (words.next().unwrap_or(20_000) as usize, words.next().unwrap_or(27), words.next().unwrap_or(9) as u32);
    let mut x = Random(seed);
    // A bag takes at most six handfuls, and a new beginning as many as there are pans.
    let handfuls: Vec<u32> = (0..bags * 24 + 100).map(|_| 90 + (0..4).map(|_| x.within(0, 80)).sum::<u32>()).collect();
    let machines: Vec<Machine> = std::iter::once(Machine::Best).chain(TRIES.map(Machine::Tries)).collect();
    let tasks: Vec<Task> = [1, 10].iter().flat_map(|parts| PANS.iter().flat_map(|pans| machines.iter().map(|m| (*parts, *pans, *m)))).collect();
    let outcomes = played(&tasks, &handfuls, bags, seed, age);
    println!("Seasons of {bags} bags by the rule 100 10 6 {age} (100 units, at most 10 above, 6 pans, none waits for more than {age} bags), seed {seed}.");
    println!("Handfuls: 9 to 41 units, 25 on average, with a spread of {:.1}.", spread(&handfuls) / 10.0);
    let half = outcomes.len() / 2;
    show(1, &outcomes[..half], bags);
    show(10, &outcomes[half..], bags);
}

fn spread(handfuls: &[u32]) -> f64 {
    let mean = handfuls.iter().map(|h| *h as f64).sum::<f64>() / handfuls.len() as f64;
    (handfuls.iter().map(|h| (*h as f64 - mean).powi(2)).sum::<f64>() / handfuls.len() as f64).sqrt()
}
