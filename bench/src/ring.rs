//! A ring of pans with its rule, and what an engine answers for it.

#[derive(Clone)]
pub struct Ring {
    /// Target, above, pans, age.
    pub rule: [u32; 4],
    pub weights: Vec<u32>,
    pub ages: Vec<u32>,
}

/// The opened pans as a number (2 to the power of each one's number, added) and their weight, or none.
pub type Answer = Option<(u32, u32)>;

impl Ring {
    /// With no pan old: the rule's age is above every age.
    pub fn young(target: u32, above: u32, pans: u32, weights: Vec<u32>) -> Ring {
        let ages = vec![0; weights.len()];
        Ring { rule: [target, above, pans, 1_000_000], weights, ages }
    }

    /// Whether the numbers are in order, as the proved calls check them before they decide.
    pub fn in_order(&self) -> bool {
        let limit = 1_000_000;
        self.rule.iter().all(|x| *x <= limit)
            && self.rule[0] > 0
            && (1..=24).contains(&self.weights.len())
            && self.ages.len() == self.weights.len()
            && self.weights.iter().all(|x| *x <= limit)
            && self.ages.iter().all(|x| *x <= limit)
    }

    /// The pans that have to be opened, as a number, pan 0 lowest.
    pub fn old(&self) -> u32 {
        bits(&self.ages, |a| a >= self.rule[3])
    }

    /// The pans that can't be opened, since they are empty.
    pub fn empty(&self) -> u32 {
        bits(&self.weights, |w| w == 0)
    }

    /// The bytes that are asked for the table: a row for no pan and one for each two pans, each of whole blocks of 64 bytes for the weights up to W,
    /// with as many in front as two pans can reach back.
    pub fn table_bytes(&self) -> usize {
        let (mut due, mut free, mut heaviest) = (0u32, 0u32, 0u32);
        for (w, a) in self.weights.iter().zip(&self.ages) {
            if *a >= self.rule[3] {
                due += w;
            } else {
                free += w;
                heaviest = heaviest.max(*w);
            }
        }
        let span = (self.rule[0] + self.rule[1]).saturating_sub(due).min(free);
        let width = |most: u32| (most as usize / 64 + 1) * 64;
        (width(span) + width(span).min(width(2 * heaviest))) * ((self.weights.len() + 1) / 2 + 1)
    }
}

fn bits(numbers: &[u32], test: impl Fn(u32) -> bool) -> u32 {
    numbers.iter().enumerate().fold(0, |made, (i, x)| made | ((test(*x) as u32) << i))
}
