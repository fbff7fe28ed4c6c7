//! Follows a path from Rust: document 01's example, and the same with a budget that it spends. `outside/run c` compiles
//! it and links the library; `programs/src/proved.rs` declares every other call.

/// The facts of an end: places, labels read, kind of end (0 place, 1 facet), block, vertices.
const FACTS: usize = 5;
const REFUSED_BUDGET: u8 = 9;

#[rustfmt::skip]
extern "C" {
    fn leveretplate_run(
        sizes: *const u8, sizes_length: usize,
        divisions: *const u16, divisions_length: usize,
        start: *const u16, start_length: usize,
        labels: *const u8, labels_length: usize,
        answer: *mut u16, answer_length: usize,
        budget: u64,
        facts: *mut [u64; FACTS],
    ) -> u8;
}

fn main() {
    let (sizes, divisions) = ([2, 2], [1, 1]);
    let (start, labels) = ([1, 0, 1, 0], [2, 2, 2, 4]);
    let mut answer = [0; 12];
    let mut facts = [0; FACTS];
    for budget in [u64::MAX, 3] {
        // Safety: each pointer comes with the length of its array, and the facts have as many numbers as are written.
        #[rustfmt::skip]
        let number = unsafe {
            leveretplate_run(
                sizes.as_ptr(), sizes.len(),
                divisions.as_ptr(), divisions.len(),
                start.as_ptr(), start.len(),
                labels.as_ptr(), labels.len(),
                answer.as_mut_ptr(), answer.len(),
                budget,
                &mut facts,
            )
        };
        let [places, labels_read, kind, block, vertices] = facts;
        match number {
            0 => {
                let kind = ["place", "facet"][kind as usize];
                let numbers: Vec<_> = answer[..vertices as usize * start.len()].iter().map(u16::to_string).collect();
                let simplex = numbers.join(" ");
                println!("{places} places, {labels_read} labels read, a {kind} end for block {block}: {simplex}");
            }
            REFUSED_BUDGET => println!("not ended after {places} places"),
            number => panic!("refused {number}"),
        }
    }
}
