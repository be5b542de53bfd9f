//! The table by weight, unproved: the same idea as the proved engine, written on its own. First the bags of just the target that few
//! pans make, by two small tables; then rows of least counts, two pans a row, gone over in blocks.
use crate::ring::{Answer, Ring};

const BLOCK: usize = 64;

/// What the pans are to the tables.
struct Seen {
    due: u32,
    held: u32,
    free: u32,
    heaviest: u32,
    lies: [u32; 24],
}

/// None where a pan that has to be opened is empty.
fn look(ring: &Ring) -> Option<Seen> {
    let mut seen = Seen { due: 0, held: 0, free: 0, heaviest: 0, lies: [0; 24] };
    let mut ready = true;
    for ((w, a), lies) in ring.weights.iter().zip(&ring.ages).zip(&mut seen.lies) {
        let free = if *a < ring.rule[3] { *w } else { 0 };
        *lies = free;
        seen.due += *w - free;
        seen.held += (*a >= ring.rule[3]) as u32;
        seen.free += free;
        seen.heaviest = seen.heaviest.max(free);
        ready &= (*a < ring.rule[3]) | (*w > 0);
    }
    ready.then_some(seen)
}

/// The first pan that holds just a weight.
fn one(lies: &[u32], weight: u32) -> Option<u32> {
    lies.iter().position(|w| *w == weight).map(|i| 1 << i)
}

/// The first two pans: the first such that the rest lies in a pan behind it, as the table tells.
fn two(lies: &[u32], from: usize, ones: &[u8], weight: u32) -> Option<u32> {
    let (i, rest) = (from..lies.len()).find_map(|i| {
        let w = lies[i];
        (w > 0 && w < weight && ones[(weight - w) as usize] as usize > i + 1).then_some((i, weight - w))
    })?;
    Some(1 << i | one(&lies[i + 1..], rest)? << (i + 1))
}

/// The first three pans, as `two`, with the table of pairs.
fn three(lies: &[u32], from: usize, ones: &[u8], pairs: &[u8], weight: u32) -> Option<u32> {
    (from..lies.len()).find_map(|i| {
        let w = lies[i];
        if w > 0 && w < weight && pairs[(weight - w) as usize] as usize > i + 1 {
            two(lies, i + 1, ones, weight - w).map(|rest| 1 << i | rest)
        } else {
            None
        }
    })
}

/// The pans of the best bag of just a weight, where at most four make it: `ones` tells for each weight 1 and the last pan that holds it,
/// `pairs` 1 and the last first pan of a pair.
fn few(lies: &[u32], weight: u32, most: u32, room: &mut [u8]) -> Option<u32> {
    let wide = weight as usize + 1;
    let (ones, rest) = room.split_at_mut(wide);
    ones.fill(0);
    for (i, w) in lies.iter().enumerate() {
        if *w > 0 && *w <= weight {
            ones[*w as usize] = i as u8 + 1;
        }
    }
    if most >= 1 && let Some(pans) = one(lies, weight) {
        return Some(pans);
    }
    if most >= 2 && let Some(pans) = two(lies, 0, ones, weight) {
        return Some(pans);
    }
    if most < 3 {
        return None;
    }
    let pairs = &mut rest[..wide];
    pairs.fill(0);
    for (i, w) in lies.iter().enumerate() {
        for v in &lies[i + 1..] {
            let sum = w + v;
            if *w > 0 && *v > 0 && sum <= weight {
                pairs[sum as usize] = i as u8 + 1;
            }
        }
    }
    three(lies, 0, ones, pairs, weight).or_else(|| {
        if most < 4 {
            return None;
        }
        (0..lies.len()).find_map(|i| {
            let w = lies[i];
            if w > 0 && w < weight { three(lies, i + 1, ones, pairs, weight - w).map(|rest| 1 << i | rest) } else { None }
        })
    })
}

fn block(room: &[u8], at: usize) -> [u8; BLOCK] {
    room[at..at + BLOCK].try_into().unwrap()
}

fn join(shut: [u8; BLOCK], second: [u8; BLOCK], first: [u8; BLOCK], both: [u8; BLOCK]) -> [u8; BLOCK] {
    let mut made = [0; BLOCK];
    for x in 0..BLOCK {
        let open = first[x].min(both[x].saturating_add(1));
        made[x] = shut[x].min(second[x].min(open).saturating_add(1));
    }
    made
}

struct Rows {
    pad: usize,
    width: usize,
}

/// Each row stands behind `pad` bytes of 255, and holds the least count for each weight.
fn fill(seen: &Seen, pairs: usize, from: usize, rows: &Rows, room: &mut [u8]) -> usize {
    let wide = rows.pad + rows.width;
    room[..wide].fill(255);
    room[rows.pad] = 0;
    let never = block(room, 0);
    let mut row = rows.pad;
    let mut before = seen.free as usize;
    for pair in (0..pairs).rev() {
        let (first, second) = (seen.lies[2 * pair] as usize, seen.lies[2 * pair + 1] as usize);
        before -= first + second;
        let low = from.saturating_sub(before) / BLOCK * BLOCK;
        let high = rows.width.min((seen.free as usize - before) / BLOCK * BLOCK + BLOCK);
        let (first, second, both) = (first.min(rows.pad), second.min(rows.pad), (first + second).min(rows.pad));
        let next = row + wide;
        for at in (next - rows.pad..next).step_by(BLOCK) {
            room[at..at + BLOCK].copy_from_slice(&never);
        }
        for at in (low..high).step_by(BLOCK) {
            let here = row + at;
            let made = join(block(room, here), block(room, here - second), block(room, here - first), block(room, here - both));
            room[next + at..next + at + BLOCK].copy_from_slice(&made);
        }
        for at in (high.max(low)..rows.width).step_by(BLOCK) {
            room[next + at..next + at + BLOCK].copy_from_slice(&never);
        }
        row = next;
    }
    row
}

fn read(seen: &Seen, pairs: usize, top: usize, rows: &Rows, room: &[u8], weight: usize) -> u32 {
    let (mut row, mut left, mut pans) = (top, weight, 0);
    for pair in 0..pairs {
        let rest = row - rows.pad - rows.width + left;
        let (first, second) = (seen.lies[2 * pair] as usize, seen.lies[2 * pair + 1] as usize);
        let whole = room[row + left];
        let alone = room[rest - first.min(rows.pad)];
        let other = room[rest - second.min(rows.pad)];
        let both = room[rest - (first + second).min(rows.pad)];
        let with = alone.min(both.saturating_add(1));
        let opens = with < whole;
        let also = if opens { both < with } else { other < whole };
        pans |= (opens as u32 | (also as u32) << 1) << (2 * pair);
        left -= first * opens as usize + second * also as usize;
        row -= rows.pad + rows.width;
    }
    pans
}

pub fn best(ring: &Ring, room: &mut [u8]) -> Answer {
    if !ring.in_order() {
        return None;
    }
    let [target, above, most, age] = ring.rule;
    let seen = look(ring)?;
    if seen.held > most || seen.due > target + above {
        return None;
    }
    let mut old = 0;
    if seen.held > 0 {
        for (i, a) in ring.ages.iter().enumerate() {
            old |= ((*a >= age) as u32) << i;
        }
    }
    let n = ring.weights.len();
    if seen.due < target && 4 * seen.heaviest >= target - seen.due {
        if let Some(pans) = few(&seen.lies[..n], target - seen.due, most - seen.held, room) {
            return Some((pans | old, target));
        }
    }
    let span = (target + above - seen.due).min(seen.free) as usize;
    let from = target.saturating_sub(seen.due) as usize;
    if from > span {
        return None;
    }
    let width = (span / BLOCK + 1) * BLOCK;
    let rows = Rows { pad: width.min((2 * seen.heaviest as usize / BLOCK + 1) * BLOCK), width };
    let pairs = (n + 1) / 2;
    let top = fill(&seen, pairs, from, &rows, room);
    let limit = (most - seen.held).min(254) as u8;
    let x = from + room[top + from..top + span + 1].iter().position(|c| *c <= limit)?;
    Some((read(&seen, pairs, top, &rows, room, x) | old, seen.due + x as u32))
}
