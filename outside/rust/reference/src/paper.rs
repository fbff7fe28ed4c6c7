//! The finder for grids of any accepted size: the steps of the 1987 paper's section 4 as document 01 fixes them.
//!
//! A vertex is kept by its coefficient list c, from which a coordinate is y_h = v_h + c_h - c_(h+1). The vertices of
//! the present place stand in slots, joined in a ring in their order; an exchange overwrites the slot of the vertex
//! that leaves and turns or swaps what is around it, so no vertex ever moves to another slot.

use crate::grid::{Grid, MOST_BLOCKS, MOST_INDICES};
use crate::outcome::{End, Kind, Outcome};
use crate::questions;
use crate::trail::Set;

type Coefficients = [u16; MOST_INDICES];

/// Keeps a slot or an index below 16, which spares the test at each array access.
const LOW: usize = MOST_INDICES - 1;

/// 1 at the indices up to the row's own and 0 behind, so that differences of rows are 1 over a range of indices.
const UP_TO: [Coefficients; MOST_INDICES] = {
    let mut rows = [[0; MOST_INDICES]; MOST_INDICES];
    let mut at = 0;
    while at < MOST_INDICES * MOST_INDICES {
        rows[at / MOST_INDICES][at % MOST_INDICES] = (at % MOST_INDICES <= at / MOST_INDICES) as u16;
        at += 1;
    }
    rows
};

/// Room for the position weights of any grid: a block of 3 with division 344 has 346, and no other grid more.
const MOST_WEIGHTS: usize = 512;

/// What stays the same along the path.
struct Frame<'a> {
    labels: &'a [u8],
    start: [u16; MOST_INDICES],
    /// The sum of the start's coordinates from an index to the last of its block.
    start_tail: [u16; MOST_INDICES],
    /// The index after and the first index of the block, for each index.
    after: [u8; MOST_INDICES],
    first: [u8; MOST_INDICES],
    /// The block of each index, that block as a mask of indices, and with a 1 at each of its indices.
    block: [u8; MOST_INDICES],
    block_mask: [u16; MOST_INDICES],
    block_ones: [Coefficients; MOST_BLOCKS],
    /// A point's position falls by `weights[offset + (r & keep)]` when the tail sum at an index rises to r and nothing
    /// else changes.
    weights: [u16; MOST_WEIGHTS],
    offset: [u16; MOST_INDICES],
    keep: [u16; MOST_INDICES],
}

/// The present place.
struct Place {
    t: u16,
    u: u16,
    used: u16,
    /// The slot of the first vertex in rising order of coefficient sum.
    first: usize,
    /// The slot of the next and the previous vertex; the last vertex is followed by the first.
    next: [u8; MOST_INDICES],
    previous: [u8; MOST_INDICES],
    /// The index of T by which the vertex in a slot goes to the next.
    step: [u8; MOST_INDICES],
    vertices: [Coefficients; MOST_INDICES],
    positions: [u16; MOST_INDICES],
    /// The slot of the vertex that carries a label of T, the vertex come in last left aside.
    holder: [u8; MOST_INDICES],
}

/// What came of taking a vertex out of a place.
enum Exchange {
    /// Another vertex stands in its slot.
    Replaced,
    /// T lost this index and the place has a vertex fewer.
    Dropped(usize),
    /// What remains is complete for the block of this index.
    Complete(usize),
}

fn bits(mut mask: u16) -> impl Iterator<Item = usize> {
    std::iter::from_fn(move || {
        (mask != 0).then(|| {
            let bit = mask.trailing_zeros() as usize;
            mask &= mask - 1;
            bit
        })
    })
}

fn highest(mask: u16) -> usize {
    LOW - (mask.leading_zeros() as usize & LOW)
}

fn binomial(above: usize, below: usize) -> usize {
    (1..=below).fold(1, |count, taken| count * (above - below + taken) / taken)
}

impl<'a> Frame<'a> {
    fn new(grid: &Grid, start: &[u16], labels: &'a [u8]) -> (Frame<'a>, u16) {
        let mut frame = Frame {
            labels,
            start: [0; MOST_INDICES],
            start_tail: [0; MOST_INDICES],
            after: [0; MOST_INDICES],
            first: [0; MOST_INDICES],
            block: [0; MOST_INDICES],
            block_mask: [0; MOST_INDICES],
            block_ones: [[0; MOST_INDICES]; MOST_BLOCKS],
            weights: [0; MOST_WEIGHTS],
            offset: [0; MOST_INDICES],
            keep: [0; MOST_INDICES],
        };
        let mut room = 0;
        let mut position = 0;
        let mut stride = grid.points;
        for (j, range) in grid.ranges().enumerate() {
            let division = grid.divisions[j] as usize;
            let count = binomial(division + range.len() - 1, range.len() - 1);
            stride /= count;
            position += (count - 1) * stride;
            frame.block_ones[j][range.clone()].fill(1);
            let mut tail = 0;
            for h in range.clone().rev() {
                tail += start[h];
                frame.start[h] = start[h];
                frame.start_tail[h] = tail;
                frame.after[h] = if h + 1 == range.end { range.start } else { h + 1 } as u8;
                frame.first[h] = range.start as u8;
                frame.block[h] = j as u8;
                frame.block_mask[h] = (((1u32 << range.len()) - 1) << range.start) as u16;
                if h > range.start {
                    let behind = range.end - 1 - h;
                    position -= stride * binomial(tail as usize + behind, behind + 1);
                    room = frame.add_weights(h, behind, division, stride, room);
                }
            }
        }
        (frame, position as u16)
    }

    /// Writes the weights of an index with `behind` indices after it in its block; answers where the next may begin.
    /// The weight at r is the stride times "r + behind - 1 choose behind", so each index's weights are the sums of
    /// those of the index after it.
    fn add_weights(&mut self, h: usize, behind: usize, division: usize, stride: usize, room: usize) -> usize {
        self.offset[h] = room as u16;
        if behind == 0 {
            self.weights[room] = stride as u16;
            return room + 1;
        }
        self.keep[h] = u16::MAX;
        let mut weight = 0;
        for r in 0..=division {
            if r > 0 {
                weight += self.weight(h + 1, r as u16);
            }
            self.weights[room + r] = weight;
        }
        room + division + 1
    }

    fn weight(&self, h: usize, r: u16) -> u16 {
        self.weights[(self.offset[h] + (r & self.keep[h])) as usize]
    }

    fn coordinate(&self, c: &Coefficients, h: usize) -> u16 {
        self.start[h].wrapping_add(c[h]).wrapping_sub(c[self.after[h] as usize & LOW])
    }

    /// "the first index met going back from h that is not in U"
    fn taken(&self, u: u16, h: usize) -> usize {
        let outside = self.block_mask[h] & !u;
        let before = outside & ((1 << h) - 1);
        highest(if before != 0 { before } else { outside })
    }

    /// The indices after b up to h, round the block: those whose coefficient rises by 1 when 1 goes from b to h.
    fn risen(&self, b: usize, h: usize) -> u16 {
        let up_to = |k: usize| ((2u32 << k) - 1) as u16;
        if b < h {
            up_to(h) & !up_to(b)
        } else {
            self.block_mask[h] & !(up_to(b) & !up_to(h))
        }
    }

    /// The same indices, with a 1 at each.
    fn ones(&self, b: usize, h: usize) -> Coefficients {
        let mut ones = if b < h { [0; MOST_INDICES] } else { self.block_ones[self.block[h] as usize] };
        for (one, (&to, &behind)) in ones.iter_mut().zip(UP_TO[h].iter().zip(&UP_TO[b])) {
            *one = one.wrapping_add(to).wrapping_sub(behind);
        }
        ones
    }

    /// By how much the position grows, round 2 to the 16, when the coefficients of `risen` rise by 1.
    #[inline(always)]
    fn position_change(&self, c: &Coefficients, h: usize, risen: u16) -> u16 {
        let first = self.first[h] as usize & LOW;
        let tail = |k: usize| self.start_tail[k].wrapping_add(c[k]).wrapping_sub(c[first]);
        let mut change = 0u16;
        if risen >> first & 1 == 0 {
            for k in bits(risen) {
                change = change.wrapping_sub(self.weight(k & LOW, tail(k & LOW) + 1));
            }
        } else {
            // The first coefficient rises, so the other tail sums fall.
            for k in bits(self.block_mask[h] & !risen) {
                change = change.wrapping_add(self.weight(k & LOW, tail(k & LOW)));
            }
        }
        change
    }

    /// "every block has an index in neither T nor U": whether the block of h has only one left.
    fn one_left(&self, place: &Place, h: usize) -> bool {
        (self.block_mask[h] & !(place.t | place.u)).count_ones() == 1
    }
}

impl Place {
    fn at_start(frame: &Frame, m: usize, position: u16) -> Place {
        let mut place = Place {
            t: 0,
            u: 0,
            used: 1,
            first: 0,
            next: [0; MOST_INDICES],
            previous: [0; MOST_INDICES],
            step: [0; MOST_INDICES],
            vertices: [[0; MOST_INDICES]; MOST_INDICES],
            positions: [position; MOST_INDICES],
            holder: [0; MOST_INDICES],
        };
        for h in (0..m).filter(|&h| frame.start[h] == 0) {
            place.u |= 1 << h;
        }
        place
    }

    /// The points of the slots that are used, in any order.
    fn set(&self) -> Set {
        Set { positions: bits(self.used).map(|slot| self.positions[slot] as usize).collect(), t: self.t, u: self.u }
    }

    fn next(&self, slot: usize) -> usize {
        self.next[slot & LOW] as usize & LOW
    }

    fn previous(&self, slot: usize) -> usize {
        self.previous[slot & LOW] as usize & LOW
    }

    fn step(&self, slot: usize) -> usize {
        self.step[slot & LOW] as usize & LOW
    }

    /// Writes into `slot` the point that follows the vertex in `from` by the step h, which takes from b.
    #[inline(always)]
    fn write_after(&mut self, frame: &Frame, slot: usize, from: usize, h: usize, b: usize) {
        let mut c = self.vertices[from & LOW];
        let change = frame.position_change(&c, h, frame.risen(b, h));
        for (number, one) in c.iter_mut().zip(frame.ones(b, h)) {
            *number = number.wrapping_add(one);
        }
        self.vertices[slot & LOW] = c;
        self.positions[slot & LOW] = self.positions[from & LOW].wrapping_add(change);
    }

    /// Writes into `slot` the point from which the step h, which takes from b, leads to the vertex in `to`.
    #[inline(always)]
    fn write_before(&mut self, frame: &Frame, slot: usize, to: usize, h: usize, b: usize) {
        let mut c = self.vertices[to & LOW];
        for (number, one) in c.iter_mut().zip(frame.ones(b, h)) {
            *number = number.wrapping_sub(one);
        }
        let change = frame.position_change(&c, h, frame.risen(b, h));
        self.vertices[slot & LOW] = c;
        self.positions[slot & LOW] = self.positions[to & LOW].wrapping_sub(change);
    }

    /// Step 2: T gains `label`, which U loses if it was there. Answers the slot of the new vertex.
    fn grow(&mut self, frame: &Frame, label: usize) -> usize {
        let bit = 1 << label;
        let mut from = self.previous(self.first);
        if self.u & bit != 0 {
            // The first index after the label that is not in U; it took from where the label takes now, so the label
            // goes before it.
            let outside = frame.block_mask[label] & !self.u;
            let behind = outside & !(2 * bit - 1);
            let k = if behind != 0 { behind } else { outside }.trailing_zeros() as usize;
            if self.t >> k & 1 == 1 {
                let last = from;
                from = self.first;
                while self.step(from) != k && from != last {
                    from = self.next(from);
                }
            }
            self.u &= !bit;
        }
        self.t |= bit;
        let slot = self.used.trailing_ones() as usize & LOW;
        self.used |= 1 << slot;
        let to = self.next(from);
        self.next[from & LOW] = slot as u8;
        self.previous[slot] = from as u8;
        self.next[slot] = to as u8;
        self.previous[to] = slot as u8;
        self.step[slot] = self.step[from & LOW];
        self.step[from & LOW] = label as u8;
        self.write_after(frame, slot, from, label, frame.taken(self.u, label));
        slot
    }

    /// Step 4: the vertex in `slot`, not the first, goes, and T loses the index of the step to it.
    fn shrink(&mut self, slot: usize, gains: bool) -> Exchange {
        let (before, behind) = (self.previous(slot), self.next(slot));
        let lost = self.step(before);
        self.step[before] = self.step[slot & LOW];
        self.next[before] = behind as u8;
        self.previous[behind] = before as u8;
        self.used &= !(1 << slot);
        self.t &= !(1 << lost);
        if gains {
            self.u |= 1 << lost;
        }
        Exchange::Dropped(lost)
    }

    /// Step 3: the vertex in `slot` leaves.
    #[inline(always)]
    fn exchange(&mut self, frame: &Frame, slot: usize) -> Exchange {
        let last = self.previous(self.first);
        if slot == self.first {
            self.exchange_first(frame, last)
        } else if slot == last {
            self.exchange_last(frame, last)
        } else {
            let before = self.previous(slot);
            let h = self.step(slot);
            let b = frame.taken(self.u, h);
            if frame.coordinate(&self.vertices[before], b) == 0 {
                return self.shrink(slot, true);
            }
            self.step[slot & LOW] = self.step[before];
            self.step[before] = h as u8;
            self.write_after(frame, slot, before, h, b);
            Exchange::Replaced
        }
    }

    #[inline(always)]
    fn exchange_first(&mut self, frame: &Frame, last: usize) -> Exchange {
        let slot = self.first;
        let h = self.step(slot);
        let mut b = frame.taken(self.u, h);
        if frame.coordinate(&self.vertices[last], b) == 0 {
            if frame.one_left(self, h) {
                return Exchange::Complete(h);
            }
            // U gains b. The remaining vertices keep their coefficients; only the new one is found with the new U.
            self.u |= 1 << b;
            b = frame.taken(self.u, h);
        }
        self.step[last] = h as u8;
        self.first = self.next(slot);
        self.write_after(frame, slot, last, h, b);
        Exchange::Replaced
    }

    #[inline(always)]
    fn exchange_last(&mut self, frame: &Frame, slot: usize) -> Exchange {
        let h = self.step(self.previous(slot));
        let c = &self.vertices[self.first & LOW];
        // A zero coordinate leaves on its own, whatever the coefficients are.
        if frame.coordinate(c, h) == 0 {
            return self.shrink(slot, true);
        }
        if c[h] == 0 {
            return self.shrink(slot, false);
        }
        // The coefficients do not fall from the index after b up to h, so a zero among them means that the first is
        // zero.
        let mut b = frame.taken(self.u, h);
        let mut k = frame.after[b] as usize & LOW;
        if c[k] == 0 {
            while c[frame.after[k] as usize & LOW] == 0 {
                k = frame.after[k] as usize & LOW;
            }
            self.u &= !(1 << k);
            b = k;
        }
        self.step[slot & LOW] = h as u8;
        let to = self.first;
        self.first = slot;
        self.write_before(frame, slot, to, h, b);
        Exchange::Replaced
    }

    /// Writes the vertices from `slot` to the last at the front of the answer buffer and answers their number.
    fn write(&self, frame: &Frame, m: usize, mut slot: usize, answer: &mut [u16]) -> usize {
        let last = self.previous(self.first);
        let mut count = 0;
        loop {
            for (h, number) in answer[count * m..(count + 1) * m].iter_mut().enumerate() {
                *number = frame.coordinate(&self.vertices[slot & LOW], h);
            }
            count += 1;
            if slot == last {
                return count;
            }
            slot = self.next(slot);
        }
    }
}

/// A run by the paper's steps.
pub fn run(sizes: &[u8], divisions: &[u16], start: &[u16], labels: &[u8], answer: &mut [u16], budget: u64) -> Outcome {
    match questions::of_run(sizes, divisions, start, labels, answer.len()) {
        Ok(grid) => follow(&grid, start, labels, answer, budget),
        Err(number) => Outcome::Refused(number),
    }
}

/// Follows the path on an accepted table.
pub fn follow(grid: &Grid, start: &[u16], labels: &[u8], answer: &mut [u16], budget: u64) -> Outcome {
    follow_past(grid, start, labels, answer, budget, |_| ())
}

/// The same, with the position of each point that comes in.
pub fn follow_past(
    grid: &Grid,
    start: &[u16],
    labels: &[u8],
    answer: &mut [u16],
    budget: u64,
    comes_in: impl FnMut(usize),
) -> Outcome {
    follow_watched(grid, start, labels, answer, budget, comes_in, |_| ())
}

/// The same, with each place as its points, T and U.
pub fn follow_places(
    grid: &Grid,
    start: &[u16],
    labels: &[u8],
    answer: &mut [u16],
    budget: u64,
    mut passes: impl FnMut(Set),
) -> Outcome {
    follow_watched(grid, start, labels, answer, budget, |_| (), |place| passes(place.set()))
}

fn follow_watched(
    grid: &Grid,
    start: &[u16],
    labels: &[u8],
    answer: &mut [u16],
    budget: u64,
    mut comes_in: impl FnMut(usize),
    mut passes: impl FnMut(&Place),
) -> Outcome {
    if budget == 0 {
        return Outcome::Spent(0);
    }
    let (frame, position) = Frame::new(grid, start, labels);
    let mut place = Place::at_start(&frame, grid.m, position);
    let mut places = 1;
    let mut labels_read = 0;
    let mut incoming = 0;
    passes(&place);
    loop {
        // Step 1: the label of the vertex that came in.
        let position = place.positions[incoming & LOW] as usize;
        comes_in(position);
        labels_read += 1;
        let byte = frame.labels[position] as usize;
        if byte == 0 {
            return Outcome::Unknown { places: places - 1, position };
        }
        let label = byte - 1 & LOW;
        if place.t >> label & 1 == 0 {
            if place.u >> label & 1 == 0 && frame.one_left(&place, label) {
                let vertices = place.write(&frame, grid.m, place.first, answer);
                return Outcome::Ended(End {
                    places,
                    labels_read,
                    kind: Kind::Place,
                    block: frame.block[label] as usize + 1,
                    vertices,
                });
            }
            if places == budget {
                return Outcome::Spent(places);
            }
            place.holder[label] = incoming as u8;
            incoming = place.grow(&frame, label);
            places += 1;
            passes(&place);
            continue;
        }
        let mut leaving = std::mem::replace(&mut place.holder[label], incoming as u8) as usize;
        // After T loses an index, the vertex with the lost label leaves next, and nothing new is read.
        loop {
            match place.exchange(&frame, leaving) {
                Exchange::Complete(h) => {
                    let vertices = place.write(&frame, grid.m, place.next(leaving), answer);
                    return Outcome::Ended(End {
                        places,
                        labels_read,
                        kind: Kind::Facet,
                        block: frame.block[h] as usize + 1,
                        vertices,
                    });
                }
                _ if places == budget => return Outcome::Spent(places),
                Exchange::Replaced => {
                    places += 1;
                    passes(&place);
                    incoming = leaving;
                    break;
                }
                Exchange::Dropped(lost) => {
                    places += 1;
                    passes(&place);
                    leaving = place.holder[lost & LOW] as usize;
                }
            }
        }
    }
}
