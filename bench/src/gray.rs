//! All choices tried, by a Gray code: each step opens or shuts one pan.
use crate::ring::{Answer, Ring};

/// What a choice's place in the order gains where a pan is opened: weight, then count, then the first pan that differs.
pub fn gain(weight: u32, pan: usize) -> u64 {
    ((weight as u64) << 29) + (1 << 24) - (1 << (23 - pan))
}

/// The place of the choice that opens nothing.
pub const NOTHING: u64 = (1 << 24) - 1;

struct Walk {
    from: u64,
    span: u64,
    limit: u64,
    old: u32,
    empty: u32,
    best: Option<u32>,
    pans: usize,
}

impl Walk {
    /// The choice at step i of the walk, pan 0 lowest: bit k of the Gray code is the pan k from the last.
    fn choice(&self, step: u32) -> u32 {
        (step ^ (step >> 1)).reverse_bits() >> (32 - self.pans)
    }

    #[cold]
    #[inline(never)]
    fn within(&mut self, place: u64, step: u32) {
        let choice = self.choice(step);
        if choice & self.empty == 0 && choice & self.old == self.old {
            self.span = place - self.from;
            self.best = Some(choice);
        }
    }

    #[inline(always)]
    fn look(&mut self, place: u64, step: u32) {
        if place.wrapping_sub(self.from) < self.span && (place >> 24) & 31 <= self.limit {
            self.within(place, step);
        }
    }
}

#[inline(never)]
pub fn best(r: &Ring) -> Answer {
    let n = r.weights.len();
    assert!(r.in_order() && n >= 4);
    let from = (r.rule[0] as u64) << 29;
    let to = ((r.rule[0] + r.rule[1]) as u64 + 1) << 29;
    let mut walk = Walk { from, span: to - from, limit: (r.rule[2] as u64).min(31), old: r.old(), empty: r.empty(), best: None, pans: n };
    // what each step adds: the bits of the code from the lowest on are the pans from the last on, and each time a pan's turn
    // comes it is opened or shut in turn
    let mut gains = [0u64; 32];
    for k in 0..n {
        gains[k] = gain(r.weights[n - 1 - k], n - 1 - k);
    }
    let (a, b, mut c) = (gains[0], gains[1], gains[2]);
    let mut place = NOTHING;
    let blocks = 1u32 << (n - 3);
    for block in 0..blocks {
        // in a block of 8 steps the two lowest pans go the same way each time, and the third up and down in turn
        let step = block << 3;
        walk.look(place, step);
        place = place.wrapping_add(a);
        walk.look(place, step + 1);
        place = place.wrapping_add(b);
        walk.look(place, step + 2);
        place = place.wrapping_sub(a);
        walk.look(place, step + 3);
        place = place.wrapping_add(c);
        c = c.wrapping_neg();
        walk.look(place, step + 4);
        place = place.wrapping_add(a);
        walk.look(place, step + 5);
        place = place.wrapping_sub(b);
        walk.look(place, step + 6);
        place = place.wrapping_sub(a);
        walk.look(place, step + 7);
        let turn = (3 + (block + 1).trailing_zeros() as usize).min(31);
        place = place.wrapping_add(gains[turn]);
        gains[turn] = gains[turn].wrapping_neg();
    }
    walk.best.map(|choice| (choice, ((from + walk.span) >> 29) as u32))
}

/// The same walk written plainly: one step a turn, with weight, count and choice kept apart.
#[inline(never)]
pub fn plain(r: &Ring) -> Answer {
    let n = r.weights.len();
    let [target, above, limit, _] = r.rule;
    let (old, empty) = (r.old(), r.empty());
    let (mut choice, mut weight, mut count) = (0u32, 0u32, 0u32);
    let mut best: Option<(u32, u32, u32)> = None;
    for step in 1u32..=1 << n {
        let fits = weight >= target && weight <= target + above && count <= limit && choice & empty == 0 && choice & old == old;
        if fits && best.is_none_or(|(w, c, b)| (weight, count, b.reverse_bits()) < (w, c, choice.reverse_bits())) {
            best = Some((weight, count, choice));
        }
        let pan = step.trailing_zeros() as usize;
        if pan < n {
            choice ^= 1 << pan;
            if choice >> pan & 1 == 1 {
                weight += r.weights[pan];
                count += 1;
            } else {
                weight -= r.weights[pan];
                count -= 1;
            }
        }
    }
    best.map(|(weight, _, choice)| (choice, weight))
}
