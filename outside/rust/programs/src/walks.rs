//! Random walks, good and bad, moved on, shown and pointed at by the proved code and by the definitions.

use crate::inputs::{random_grid, random_start};
use crate::random::Random;
use reference::walks::{self, Place, Step, Table, Walk, NONE};

extern "C" {
    fn leveretplate_walk_at_start(
        step: *mut Step,
        sizes: *const u8,
        sizes_length: usize,
        divisions: *const u16,
        divisions_length: usize,
        start: *const u16,
        start_length: usize,
        labels: *const u8,
        labels_length: usize,
    );
    fn leveretplate_move_on(step: *mut Step, labels: *const u8, labels_length: usize);
    fn leveretplate_preview(step: *mut Step, labels: *const u8, labels_length: usize);
    fn leveretplate_walk_points(step: *mut Step, labels: *const u8, labels_length: usize);
}

/// How often each answer was given.
#[derive(Default)]
struct Tally {
    calls: usize,
    differences: usize,
    moved: usize,
    ends: usize,
    refusals: [usize; 24],
    reasons: [usize; 6],
}

impl Tally {
    fn hold(&mut self, what: &str, before: &Step, labels: &[u8], proved: &Step, expected: &Step) {
        self.calls += 1;
        if proved != expected {
            self.differences += 1;
            if self.differences <= 3 {
                println!(
                    "DIFFERENCE in {what}: {:?}\nover {labels:?}\nproved {:?}\nexpected {:?}",
                    before.walk, proved, expected
                );
            }
        }
    }

    /// All three calls on a walk; gives the walk moved on.
    fn take(&mut self, step: &Step, labels: &[u8]) -> Step {
        let call = |function: unsafe extern "C" fn(*mut Step, *const u8, usize)| {
            let mut lent = *step;
            // Safety: the step is a whole one, and the pointer comes with the length of its slice.
            unsafe { function(&mut lent, labels.as_ptr(), labels.len()) };
            lent
        };
        let (moved, reason) = walks::call(step, labels, false);
        let (shown, _) = walks::call(step, labels, true);
        self.hold("move", step, labels, &call(leveretplate_move_on), &moved);
        self.hold("preview", step, labels, &call(leveretplate_preview), &shown);
        self.hold("points", step, labels, &call(leveretplate_walk_points), &walks::points(step, labels));
        self.refusals[moved.number as usize] += 1;
        self.moved += (moved.rule > 0) as usize;
        self.ends += (moved.block > 0) as usize;
        if let Some(reason) = reason {
            self.reasons[reason as usize] += 1;
        }
        moved
    }
}

/// The walk at a start, by both.
fn begun(tally: &mut Tally, sizes: &[u8], divisions: &[u16], start: &[u16], labels: &[u8]) -> Step {
    let old = Step::of(Walk {
        places: 3,
        labels_read: 4,
        present: NONE,
        before: NONE,
        start: [7; 16],
        divisions: [5; 6],
        sizes: [3; 6],
        blocks: 9,
        carried: [8; 16],
    });
    let mut step = old;
    // Safety: the step is a whole one, and each pointer comes with the length of its slice.
    unsafe {
        leveretplate_walk_at_start(
            &mut step,
            sizes.as_ptr(),
            sizes.len(),
            divisions.as_ptr(),
            divisions.len(),
            start.as_ptr(),
            start.len(),
            labels.as_ptr(),
            labels.len(),
        );
    }
    tally.hold("start", &old, labels, &step, &walks::at_start(&old, sizes, divisions, start, labels));
    step
}

/// A first point and an order at random.
fn any_place(random: &mut Random, walk: &Walk, table: &Table) -> Place {
    let mut place = NONE;
    let point = random_start(random, &table.grid);
    place.first[..point.len()].copy_from_slice(&point);
    if random.chance(2) {
        place.first = walk.start;
    }
    let mut indices: Vec<u32> = (0..table.grid.m as u32).collect();
    let count = random.below(table.grid.n() + 1);
    for at in 0..count {
        place.order[at] = indices.swap_remove(random.below(indices.len()));
    }
    place.count = count as u8 + 1;
    place
}

/// One change that may make a walk a bad one.
fn spoil(random: &mut Random, walk: &mut Walk, bound: u64) {
    let at = random.below(16);
    match random.below(19) {
        0 => walk.places = 0,
        1 => walk.places = bound + random.below(2) as u64,
        2 => walk.before = NONE,
        3 => walk.before = walk.present,
        4 => walk.present.order.swap(0, 1),
        5 => walk.present.count = random.below(19) as u8,
        6 => walk.present.first[at] = walk.present.first[at].wrapping_add(1),
        7 => walk.before.order[at] = random.below(20) as u32,
        8 => walk.before.count = walk.before.count.wrapping_sub(1),
        9 => walk.start.swap(0, 1),
        10 => walk.blocks = random.below(9) as u8,
        11 => walk.divisions[at % 6] = random.below(4) as u16,
        12 => walk.sizes[at % 6] = random.below(4) as u8,
        13 => walk.carried[at] = random.below(4) as u8,
        14 => walk.carried.swap(0, 1),
        15 => walk.carried[0] = 0,
        16 => walk.labels_read = 0,
        17 => walk.labels_read = walk.places + random.below(2) as u64,
        _ => std::mem::swap(&mut walk.present, &mut walk.before),
    }
}

/// Walks on random grids of at most `limit` points; how many calls differ.
pub fn compare(name: &str, seed: u64, count: usize, limit: usize) -> usize {
    let mut random = Random(seed);
    let mut tally = Tally::default();
    for _ in 0..count {
        let (sizes, divisions, grid) = random_grid(&mut random, limit);
        let mut start = random_start(&mut random, &grid);
        if random.chance(50) {
            start[0] += 1;
        }
        let gaps = random.chance(3);
        let mut labels: Vec<u8> = (0..grid.points)
            .map(|_| if gaps && random.chance(8) { 0 } else { random.below(grid.m) as u8 + 1 })
            .collect();
        if random.chance(40) {
            labels[0] = 200;
        }
        if random.chance(40) {
            labels.push(1);
        }
        let mut step = begun(&mut tally, &sizes, &divisions, &start, &labels);
        if step.number != 0 {
            continue;
        }
        for _ in 0..12 {
            let moved = tally.take(&step, &labels);
            if random.chance(3) {
                let mut bad = moved;
                spoil(&mut random, &mut bad.walk, grid.bound());
                tally.take(&bad, &labels);
            }
            if random.chance(40) {
                let (mut long, mut high) = (labels.clone(), labels.clone());
                long.push(1);
                high[random.below(labels.len())] = 200;
                tally.take(&step, &long);
                tally.take(&step, &high);
            }
            step = moved;
            if moved.rule == 0 {
                std::mem::swap(&mut step.walk.present, &mut step.walk.before);
                if let Ok(table) = Table::of(&step.walk, &labels) {
                    step.walk = table.labelled(step.walk);
                }
            }
        }
        let Ok(table) = Table::of(&step.walk, &labels) else { continue };
        for _ in 0..6 {
            let mut walk = step.walk;
            walk.present = any_place(&mut random, &walk, &table);
            walk.places = 1 + random.below(9) as u64;
            walk.labels_read = 1 + random.below(walk.places as usize) as u64;
            walk.before = any_place(&mut random, &walk, &table);
            if table.place(&walk.present).is_some() {
                let linked = table.linked(&walk.present);
                if !linked.is_empty() && !random.chance(4) {
                    walk.before = *random.among(&linked);
                }
            }
            let moved = tally.take(&Step::of(table.labelled(walk)), &labels);
            tally.take(&moved, &labels);
        }
    }
    let Tally { calls, differences, moved, ends, refusals, reasons } = &tally;
    let refused: Vec<String> =
        refusals.iter().enumerate().skip(1).filter(|(_, &n)| n > 0).map(|(k, n)| format!("{k}: {n}")).collect();
    let [place, linked, one, count, labels, read] = reasons;
    println!(
        "{name}: {calls} calls, {moved} moved, {ends} ends, refusals [{}]; 20 by place {place}, link {linked}, \
         only one {one}, count {count}, labels {labels}, labels read {read}; {differences} differences",
        refused.join(", ")
    );
    assert!(reasons.iter().all(|&count| count > 0));
    *differences
}
