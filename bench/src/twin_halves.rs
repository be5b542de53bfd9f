//! An unproved solver by two halves: the same idea as the proved one, as fast as it could be made with plain means.
//! The heaviest pans come first and in turn into either half, so that what is too heavy is left out early; the two lightest
//! stay apart, and each of their four choices is a sweep of its own over the halves of the others. Two merges and four
//! sweeps run side by side, so that none waits for what another reads, and no branch hangs on what is compared. Where the
//! count binds, what can't reach the target with the heaviest pans outside its half is left out of the halves.
use crate::gray::{NOTHING, gain};
use crate::ring::{Answer, Ring};

pub struct Room {
    front: Vec<u64>,
    back: Vec<u64>,
}

impl Room {
    pub fn new() -> Room {
        Room { front: vec![0; 2048], back: vec![0; 2048] }
    }
}

fn count(place: u64) -> usize {
    ((place >> 24) & 31) as usize
}

#[derive(Clone, Copy, Default)]
struct Pan {
    weight: u64,
    gain: u64,
    /// What it adds to the place while it is shut.
    shut: u64,
    opens: bool,
    stays: bool,
}

/// A merge from the back, in place: the first `i` entries with the first `j` of them raised.
#[derive(Clone, Copy)]
struct Merge {
    i: usize,
    j: usize,
    gain: u64,
}

impl Merge {
    /// Needs 0 < j <= i and i + j entries.
    #[inline(always)]
    unsafe fn step(&mut self, es: &mut [u64]) {
        unsafe {
            let kept = *es.get_unchecked(self.i - 1);
            let added = *es.get_unchecked(self.j - 1) + self.gain;
            *es.get_unchecked_mut(self.i + self.j - 1) = kept.max(added);
            let keeps = (kept > added) as usize;
            self.i -= keeps;
            self.j -= 1 - keeps;
        }
    }
}

/// A half as it grows.
struct Half<'a> {
    es: &'a mut [u64],
    n: usize,
}

impl Half<'_> {
    fn job(&self, pan: Pan, to: u64) -> Merge {
        let most = to.saturating_sub(pan.gain);
        let added = if pan.opens { self.es[..self.n].partition_point(|e| *e < most) } else { 0 };
        assert!(self.n + added <= self.es.len());
        Merge { i: self.n, j: added, gain: pan.gain }
    }

    fn settle(&mut self, pan: Pan, job: Merge, added: usize) {
        if pan.stays {
            let mut job = job;
            while job.j > 0 {
                unsafe { job.step(self.es) };
            }
            self.n += added;
        } else {
            self.es[..added].iter_mut().for_each(|e| *e += pan.gain);
            self.n = added;
        }
    }

    /// Leaves out what is below `short` by its count.
    fn sieve(&mut self, short: &[u64; 32]) {
        let mut left = 0;
        for i in 0..self.n {
            let e = self.es[i];
            self.es[left] = e;
            left += (e >= short[count(e)]) as usize;
        }
        self.n = left;
    }
}

/// One pan more in each half.
fn grow(a: &mut Half, p: Pan, b: &mut Half, q: Pan, to: u64) {
    let (mut x, mut y) = (a.job(p, to), b.job(q, to));
    let (added, raised) = (x.j, y.j);
    if p.stays && q.stays {
        while x.j > 0 && y.j > 0 {
            unsafe {
                x.step(a.es);
                y.step(b.es);
            }
        }
    }
    a.settle(p, x, added);
    b.settle(q, y, raised);
}

/// A sweep up the back half and down the front half: how far the least sum is over `from`.
#[derive(Clone, Copy)]
struct Lane {
    at: usize,
    left: usize,
    from: u64,
    over: u64,
}

impl Lane {
    #[inline(always)]
    unsafe fn step(&mut self, front: &[u64], back: &[u64]) {
        let sum = unsafe { *back.get_unchecked(self.at) + *front.get_unchecked(self.left - 1) };
        let short = (sum < self.from) as usize;
        self.over = self.over.min(sum.wrapping_sub(self.from));
        self.at += short;
        self.left -= 1 - short;
    }

    fn free(&self, back: &[u64]) -> usize {
        (back.len() - self.at).min(self.left)
    }
}

/// The least sum of a top and an entry of each half from `from` on and below `to`, or `to`.
fn sweep(tops: &[u64], front: &[u64], back: &[u64], from: u64, to: u64) -> u64 {
    if tops.is_empty() {
        return to;
    }
    let top = |k: usize| tops[k.min(tops.len() - 1)];
    let lane = |k: usize| Lane { at: 0, left: front.len(), from: from.saturating_sub(top(k)), over: to - from };
    let [mut a, mut b, mut c, mut d] = [lane(0), lane(1), lane(2), lane(3)];
    loop {
        let steps = a.free(back).min(b.free(back)).min(c.free(back)).min(d.free(back));
        if steps == 0 {
            break;
        }
        for _ in 0..steps {
            unsafe {
                a.step(front, back);
                b.step(front, back);
                c.step(front, back);
                d.step(front, back);
            }
        }
    }
    let mut found = to;
    for (k, mut lane) in [a, b, c, d].into_iter().enumerate() {
        while lane.free(back) > 0 {
            unsafe { lane.step(front, back) };
        }
        found = found.min(top(k).max(from) + lane.over);
    }
    found
}

/// The same within the count: for each top and each count of the back half a sweep past all that is not of it.
fn counted(tops: &[u64], front: &[u64], back: &[u64], limit: usize, from: u64, to: u64) -> u64 {
    let mut found = to;
    for top in tops.iter().filter(|top| count(**top) <= limit) {
        let left = limit - count(*top);
        for k in 0..=left.min(24) {
            let (mut i, mut j) = (0, front.len());
            while i < back.len() && j > 0 {
                let (a, b) = (back[i], front[j - 1]);
                if count(a) != k {
                    i += 1;
                } else if count(b) > left - k {
                    j -= 1;
                } else if top + a + b < from {
                    i += 1;
                } else {
                    found = found.min(top + a + b);
                    j -= 1;
                }
            }
        }
    }
    found
}

fn least(tops: &[u64], front: &[u64], back: &[u64], limit: usize, from: u64, to: u64) -> u64 {
    let mut at = from;
    for _ in 0..3 {
        let found = sweep(tops, front, back, at, to);
        if found >= to || count(found) <= limit {
            return found;
        }
        at = ((found >> 29) + 1) << 29;
    }
    counted(tops, front, back, limit, at, to)
}

/// By its count, the least place of an entry that reaches the target with the heaviest of the pans outside.
fn shorts<'a>(outside: impl Iterator<Item = &'a Pan>, target: u64, limit: usize) -> [u64; 32] {
    let mut short = [u64::MAX; 32];
    let mut reach = 0;
    let mut outside = outside;
    for c in (0..=limit).rev() {
        short[c] = target.saturating_sub(reach) << 29;
        reach += outside.next().map_or(0, |pan| pan.weight);
    }
    short
}

pub fn best(r: &Ring, room: &mut Room) -> Answer {
    if !r.in_order() {
        return None;
    }
    let n = r.weights.len();
    let [target, above, limit, age] = r.rule;
    let (from, to) = ((target as u64) << 29, ((target + above) as u64 + 1) << 29);
    let limit = (limit as usize).min(31);
    // the heaviest first
    let mut order = [Pan::default(); 24];
    for i in 0..n {
        let w = r.weights[i];
        order[i] = Pan { weight: w as u64, gain: gain(w, i), shut: 1 << (23 - i), opens: w > 0, stays: r.ages[i] < age };
        let mut k = i;
        while k > 0 && order[k - 1].weight < order[k].weight {
            order.swap(k - 1, k);
            k -= 1;
        }
    }
    let order = &order[..n];
    let half = (n - 1) / 2;
    let (paired, apart) = order.split_at(2 * half);
    let mut four = [0; 4];
    let mut tops = Half { es: &mut four, n: 1 };
    let (mut a, mut b) = (Half { es: &mut room.front, n: 1 }, Half { es: &mut room.back, n: 1 });
    tops.es[0] = apart.iter().map(|pan| pan.shut).sum();
    a.es[0] = paired.iter().step_by(2).map(|pan| pan.shut).sum();
    b.es[0] = paired.iter().skip(1).step_by(2).map(|pan| pan.shut).sum();
    for pan in apart {
        let job = tops.job(*pan, to);
        tops.settle(*pan, job, job.j);
    }
    for pair in paired.chunks(2) {
        grow(&mut a, pair[0], &mut b, pair[1], to);
    }
    if limit < n {
        tops.sieve(&shorts(paired.iter(), target as u64, limit));
        a.sieve(&shorts(order.iter().enumerate().filter(|(i, _)| *i >= 2 * half || i % 2 == 1).map(|(_, pan)| pan), target as u64, limit));
        b.sieve(&shorts(order.iter().enumerate().filter(|(i, _)| *i >= 2 * half || i % 2 == 0).map(|(_, pan)| pan), target as u64, limit));
    }
    let found = least(&tops.es[..tops.n], &a.es[..a.n], &b.es[..b.n], limit, from, to);
    if found >= to {
        return None;
    }
    let shut: u64 = order.iter().map(|pan| pan.shut).sum();
    let opened = (shut - (found & NOTHING)) as u32;
    Some((opened.reverse_bits() >> 8, (found >> 29) as u32))
}
