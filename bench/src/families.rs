//! The families of rings that are measured, from a fixed seed.
use crate::ring::Ring;

/// A small generator of numbers (splitmix64).
pub struct Random(pub u64);

impl Random {
    pub fn next(&mut self) -> u64 {
        self.0 = self.0.wrapping_add(0x9E3779B97F4A7C15);
        let x = (self.0 ^ (self.0 >> 30)).wrapping_mul(0xBF58476D1CE4E5B9);
        let x = (x ^ (x >> 27)).wrapping_mul(0x94D049BB133111EB);
        x ^ (x >> 31)
    }

    pub fn within(&mut self, low: u32, high: u32) -> u32 {
        low + (self.next() % (high - low + 1) as u64) as u32
    }

    pub fn weights(&mut self, pans: usize, low: u32, high: u32) -> Vec<u32> {
        (0..pans).map(|_| self.within(low, high)).collect()
    }

    /// A handful of around 25 grams.
    pub fn handful(&mut self) -> u32 {
        9 + self.within(0, 8) + self.within(0, 8) + self.within(0, 8) + self.within(0, 8)
    }
}

pub struct Family {
    pub name: String,
    pub pans: usize,
    pub rings: Vec<Ring>,
    /// What is wanted of the table's median beside all choices tried.
    pub table_wanted: f64,
}

fn many(name: &str, pans: usize, table_wanted: f64, mut ring: impl FnMut() -> Ring) -> Family {
    let rings = (0..1000).map(|_| ring()).collect();
    Family { name: name.into(), pans, rings, table_wanted }
}

fn half(weights: &[u32]) -> u32 {
    weights.iter().sum::<u32>() / 2
}

/// Bag after bag, as a packing line goes on: where there is no choice the old pans are emptied and filled anew, and all of
/// them where none is old.
pub fn season(x: &mut Random, pans: usize, bags: usize, best: &mut dyn FnMut(&Ring) -> Option<(u32, u32)>) -> Family {
    let mut ring = Ring { rule: [100, 10, 6, 9], weights: (0..pans).map(|_| x.handful()).collect(), ages: vec![0; pans] };
    let mut rings = Vec::new();
    while rings.len() < bags {
        rings.push(ring.clone());
        let old = ring.old();
        let opened = match best(&ring) {
            Some((opened, _)) => opened,
            None if old != 0 => old,
            None => (1 << pans) - 1,
        };
        for i in 0..pans {
            ring.ages[i] += 1;
            if opened >> i & 1 == 1 {
                ring.weights[i] = x.handful();
                ring.ages[i] = 0;
            }
        }
    }
    Family { name: format!("a season of {bags} bags, {pans} pans, rule 100 10 6 9"), pans, rings, table_wanted: 0.0 }
}

pub fn all(x: &mut Random) -> Vec<Family> {
    let mut made = Vec::new();
    for pans in [8, 14, 20, 24] {
        for most in [4, 6, 8, 24] {
            if most == 8 && pans < 24 {
                continue;
            }
            let name = format!("{pans} pans, 5..60, target 100, at most {most}");
            let wanted = if pans == 24 { 25_000.0 } else { 0.0 };
            made.push(many(&name, pans, wanted, || Ring::young(100, 10, most, x.weights(pans, 5, 60))));
        }
    }
    for most in [6, 24] {
        let name = format!("tenths, 150..350, target 1000, at most {most}");
        made.push(many(&name, 24, 10_000.0, || Ring::young(1000, 100, most, x.weights(24, 150, 350))));
    }
    made.push(many("target half of everything, 5..60", 24, 20_000.0, || {
        let weights = x.weights(24, 5, 60);
        Ring::young(half(&weights), 10, 24, weights)
    }));
    made.push(many("all equal, target half of everything", 24, 20_000.0, || {
        let weights = vec![x.within(20, 30); 24];
        Ring::young(half(&weights), 10, 24, weights)
    }));
    made.push(many("none fits, 34..49, window 99..101", 24, 0.0, || Ring::young(99, 2, 24, x.weights(24, 34, 49))));
    made.push(many("none fits, half of everything", 24, 0.0, || Ring::young(12_121, 800, 24, x.weights(24, 1000, 1010))));
    made.push(many("even weights, window 101", 24, 0.0, || {
        Ring::young(101, 0, 24, x.weights(24, 3, 30).iter().map(|w| 2 * w).collect())
    }));
    made.push(many("even weights, odd half of everything", 24, 0.0, || {
        let weights: Vec<u32> = x.weights(24, 3, 30).iter().map(|w| 2 * w).collect();
        Ring::young(half(&weights) | 1, 0, 24, weights)
    }));
    made.push(many("weights to 1,000,000, target 1,000,000", 24, 0.0, || {
        Ring::young(1_000_000, 1000, 24, x.weights(24, 1, 1_000_000))
    }));
    made.push(many("weights to 80,000, target half of everything", 24, 0.0, || {
        let weights = x.weights(24, 1, 80_000);
        Ring::young(half(&weights), 10, 24, weights)
    }));
    made.push(many("tight count, weights to 100,000, 1,000,000 above", 24, 0.0, || {
        let weights = x.weights(24, 1, 100_000);
        let most = x.within(6, 12) as usize;
        let mut heaviest = weights.clone();
        heaviest.sort_by(|a, b| b.cmp(a));
        let target = heaviest[..most].iter().sum::<u32>() / 100 * 95;
        Ring::young(target.min(1_000_000), 1_000_000, most as u32, weights)
    }));
    made
}
