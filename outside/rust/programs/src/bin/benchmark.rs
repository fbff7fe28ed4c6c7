//! Times the implementations on the same inputs, with warm buffers: the median of many short repetitions, their
//! quartiles, and the least, in processor time on Linux, so that other programs disturb little.
//!
//!     cargo run --release --bin benchmark            # everything
//!     cargo run --release --bin benchmark -- "16;6"  # the lines that have this text

use programs::calls::{BoundaryCall, CheckCall, Fields, LabelCall, RunCall};
use programs::implementations::{Paper, Sheet};
use programs::inputs::{long_run, whole_simplex, From, LONG_RUNS};
use programs::{refinements, Implementation, NearCall, ReadCall, RefineCall, TrailCall};
use reference::games::{self, GAMES};
use reference::grid::{Grid, MOST_LOSSES};
use reference::slip::SHEET_BYTES;
use reference::Outcome;
use std::hint::black_box;
use std::time::Duration;

/// Odd, so that there is a median. The repetitions are short, so that few of them are interrupted.
const REPETITIONS: usize = 101;
const REPETITION: Duration = Duration::from_millis(2);

/// How many tables of a grid are run in turn where a call is timed beside the run alone.
const TABLES: u64 = 8;

/// Room for the trails of the benchmark's paths.
const MOST_TRAIL: usize = 500_000;

/// Divisions that bring each game's grid near 60,000 points.
const GAME_DIVISIONS: [&[u16]; 3] = [&[38, 38, 38], &[7, 7, 8], &[14, 14, 15, 15]];

/// Grids with a boundary of a few points, of some, and of all.
const BOUNDARY_GRIDS: [(&[u8], &[u16]); 5] = [
    (&[2], &[59_999]),
    (&[2, 2], &[240, 240]),
    (&[3, 3, 3], &[7, 7, 8]),
    (&[2, 2, 2, 2, 2, 2], &[5, 5, 5, 5, 5, 6]),
    (&[16], &[6]),
];

extern "C" {
    /// The C library's; the time is in seconds and nanoseconds.
    fn clock_gettime(clock: i32, time: *mut [i64; 2]) -> i32;
}

/// The processor time of this thread in nanoseconds.
fn now() -> f64 {
    const THREAD_CPU_TIME: i32 = 3;
    let mut time = [0; 2];
    // Safety: the C library writes two 64-bit numbers.
    assert_eq!(unsafe { clock_gettime(THREAD_CPU_TIME, &mut time) }, 0, "the clock of processor time");
    time[0] as f64 * 1e9 + time[1] as f64
}

/// Nanoseconds for one call.
struct Timing {
    median: f64,
    quartiles: [f64; 2],
    least: f64,
}

/// Times the calls in turn, one repetition of each after the other, so that a slow moment of the machine falls on all
/// of them.
fn time(calls: &mut [Box<dyn FnMut() + '_>]) -> Vec<Timing> {
    let mut counts = Vec::new();
    for call in calls.iter_mut() {
        call();
        let begin = now();
        call();
        let once = (now() - begin).max(1.0);
        counts.push((REPETITION.as_nanos() as f64 / once).ceil() as usize);
    }
    let mut times = vec![Vec::new(); calls.len()];
    for _ in 0..REPETITIONS {
        for ((call, &count), times) in calls.iter_mut().zip(&counts).zip(&mut times) {
            let begin = now();
            (0..count).for_each(|_| call());
            times.push((now() - begin) / count as f64);
        }
    }
    let timing = |mut times: Vec<f64>| {
        times.sort_by(f64::total_cmp);
        let quartiles = [times[REPETITIONS / 4], times[3 * REPETITIONS / 4]];
        Timing { median: times[REPETITIONS / 2], quartiles, least: times[0] }
    };
    times.into_iter().map(timing).collect()
}

struct Benchmark {
    implementations: Vec<Box<dyn Implementation>>,
    /// Only lines with this text are timed.
    text: String,
}

impl Benchmark {
    /// Prints a line for each implementation; where there are units, such as places, also the time for each of them.
    fn print(&self, name: &str, unit: &str, units: u64, calls: &mut [Box<dyn FnMut() + '_>]) {
        if !name.contains(&self.text) {
            return;
        }
        let timings = time(calls);
        for (implementation, timing) in self.implementations.iter().zip(&timings) {
            let [median, low, high, least] = [timing.median, timing.quartiles[0], timing.quartiles[1], timing.least];
            print!("{name:44} {:8} ", implementation.name());
            print!("{:9.2} us ({:.2} to {:.2}, least {:.2})", median / 1e3, low / 1e3, high / 1e3, least / 1e3);
            if units > 0 {
                print!("  {:.2} ns a {unit} (least {:.2})", median / units as f64, least / units as f64);
            }
            println!("  ratio {:.2} (of the least {:.2})", median / timings[0].median, least / timings[0].least);
        }
    }

    fn run(&self, name: &str, run: &RunCall) {
        let mut answers = vec![vec![0; run.answer]; self.implementations.len()];
        let places = match self.implementations[0].run(run, &mut answers[0]) {
            Outcome::Ended(end) => end.places,
            _ => 0,
        };
        let name = if places > 0 { format!("{name}, {places} places") } else { name.to_string() };
        let mut calls: Vec<Box<dyn FnMut()>> = Vec::new();
        for (implementation, answer) in self.implementations.iter().zip(&mut answers) {
            calls.push(Box::new(move || {
                black_box(implementation.run(black_box(run), answer));
            }));
        }
        self.print(&name, "place", places, &mut calls);
    }

    /// Tables of a grid whose runs follow each other, where a call is timed beside another: over one table alone the
    /// processor learns the path by heart, and the call that is longer, only in part.
    fn tables(
        &self,
        name: &str,
        sizes: &[u8],
        divisions: &[u16],
        from: From,
        seed: u64,
        rounds: usize,
    ) -> Vec<RunCall> {
        if !name.contains(&self.text) {
            return Vec::new();
        }
        (0..TABLES).map(|k| long_run(sizes, divisions, from, seed + 1000 * k, rounds)).collect()
    }

    /// The call that reports where the path came nearest, beside the run alone, over all these tables: at most 3 times
    /// as long was aimed at.
    fn near(&self, name: &str, calls: &[NearCall]) {
        if !name.contains(&self.text) {
            return;
        }
        for implementation in &self.implementations {
            let room = calls[0].run.answer;
            let (mut alone, mut answer, mut list) = (vec![0; room], vec![0; room], vec![0; calls[0].list]);
            let timings = time(&mut [
                Box::new(|| {
                    for call in calls {
                        black_box(implementation.run(black_box(&call.run), &mut alone));
                    }
                }),
                Box::new(|| {
                    for call in calls {
                        black_box(implementation.near(black_box(call), &mut answer, &mut list));
                    }
                }),
            ]);
            let [run, near] = [&timings[0], &timings[1]];
            let each = calls.len() as f64 * 1e3;
            print!(
                "{name:44} {:8} {:9.2} us (least {:.2})",
                implementation.name(),
                near.median / each,
                near.least / each
            );
            println!("  {:.2} times the run (of the least {:.2})", near.median / run.median, near.least / run.least);
        }
    }

    /// The run that writes a trail, and the reading of that trail's last record, beside the run alone, over all these
    /// tables: the most that they may take is 2.5 times as long and as long.
    fn trail(&self, name: &str, runs: &[RunCall]) {
        if !name.contains(&self.text) {
            return;
        }
        for implementation in &self.implementations {
            let room = runs[0].answer;
            let (mut alone, mut answer, mut trail) = (vec![0; room], vec![0; room], vec![0; MOST_TRAIL]);
            let writes: Vec<TrailCall> =
                runs.iter().map(|run| TrailCall { run: run.clone(), room: MOST_TRAIL }).collect();
            let mut reads = Vec::new();
            for call in &writes {
                let written = implementation.write(call, &mut answer, &mut trail);
                let (Outcome::Ended(end), Some(bytes)) = (written.run, written.bytes) else {
                    unreachable!("an end and its trail")
                };
                reads.push(read_of(&call.run, trail[..bytes].to_vec(), end.places));
            }
            let timings = time(&mut [
                Box::new(|| {
                    for run in runs {
                        black_box(implementation.run(black_box(run), &mut alone));
                    }
                }),
                Box::new(|| {
                    for call in &writes {
                        black_box(implementation.write(black_box(call), &mut answer, &mut trail));
                    }
                }),
                Box::new(|| {
                    for read in &reads {
                        black_box(implementation.read(black_box(read))).expect("a place");
                    }
                }),
            ]);
            let [run, write, read] = [&timings[0], &timings[1], &timings[2]];
            let each = runs.len() as f64 * 1e3;
            print!(
                "{name:44} {:8} {:9.2} us (least {:.2})",
                implementation.name(),
                write.median / each,
                write.least / each
            );
            print!("  {:.2} times the run (of the least {:.2})", write.median / run.median, write.least / run.least);
            print!("  last record read {:.2} us (least {:.2})", read.median / each, read.least / each);
            println!("  {:.2} times the run (of the least {:.2})", read.median / run.median, read.least / run.least);
        }
    }

    fn read(&self, name: &str, call: &ReadCall) {
        let mut calls: Vec<Box<dyn FnMut()>> = Vec::new();
        for implementation in &self.implementations {
            calls.push(Box::new(move || {
                black_box(implementation.read(black_box(call))).expect("a place");
            }));
        }
        self.print(name, "record", call.record, &mut calls);
    }

    fn label(&self, name: &str, call: &LabelCall) {
        let mut buffers = vec![vec![0; call.buffer]; self.implementations.len()];
        let mut calls: Vec<Box<dyn FnMut()>> = Vec::new();
        for (implementation, labels) in self.implementations.iter().zip(&mut buffers) {
            calls.push(Box::new(move || {
                black_box(implementation.label(black_box(call), labels)).expect("a labelling");
            }));
        }
        self.print(name, "point", call.buffer as u64, &mut calls);
    }

    fn boundary(&self, name: &str, call: &BoundaryCall) {
        let mut buffers = vec![vec![0; call.buffer]; self.implementations.len()];
        let mut calls: Vec<Box<dyn FnMut()>> = Vec::new();
        for (implementation, labels) in self.implementations.iter().zip(&mut buffers) {
            calls.push(Box::new(move || {
                black_box(implementation.boundary(black_box(call), labels)).expect("a table");
            }));
        }
        self.print(name, "point", call.buffer as u64, &mut calls);
    }

    fn check(&self, name: &str, call: &CheckCall) {
        let mut calls: Vec<Box<dyn FnMut()>> = Vec::new();
        for implementation in &self.implementations {
            calls.push(Box::new(move || {
                black_box(implementation.check(black_box(call)));
            }));
        }
        self.print(name, "", 0, &mut calls);
    }

    /// Beside the refinement, its labellings and runs one by one, each with its own questions; the ratio is to those of
    /// the same code.
    fn refine(&self, name: &str, call: &RefineCall) {
        if !name.contains(&self.text) {
            return;
        }
        for implementation in &self.implementations {
            let levels = one_by_one(implementation.as_ref(), call);
            let (mut labels, mut answer) = (vec![0; call.buffer], vec![0; call.answer]);
            let (mut tables, mut answers) = (vec![0; call.buffer], vec![0; call.answer]);
            let mut calls: Vec<Box<dyn FnMut()>> = vec![
                Box::new(|| {
                    for (label, run) in &levels {
                        let table = &mut tables[..label.buffer];
                        black_box(implementation.label(black_box(label), table)).expect("a labelling");
                        black_box(implementation.run(black_box(run), &mut answers[..run.answer]));
                    }
                }),
                Box::new(|| {
                    black_box(implementation.refine(black_box(call), &mut labels, &mut answer)).expect("a refinement");
                }),
            ];
            let [parts, whole] = &time(&mut calls)[..] else { unreachable!("two calls") };
            print!(
                "{name:44} {:8} {:9.2} us (least {:.2})",
                implementation.name(),
                whole.median / 1e3,
                whole.least / 1e3
            );
            print!("  one by one {:.2} us (least {:.2})", parts.median / 1e3, parts.least / 1e3);
            println!("  ratio {:.3} (of the least {:.3})", whole.median / parts.median, whole.least / parts.least);
        }
    }

    fn sheet(&self, name: &str, slip: &[u8]) {
        let mut buffers: Vec<Box<Sheet>> = self.implementations.iter().map(|_| Box::new([0; SHEET_BYTES])).collect();
        let mut calls: Vec<Box<dyn FnMut()>> = Vec::new();
        for (implementation, sheet) in self.implementations.iter().zip(&mut buffers) {
            calls.push(Box::new(move || {
                black_box(implementation.sheet(black_box(slip), sheet));
            }));
        }
        self.print(name, "", 0, &mut calls);
    }
}

fn grid_name(sizes: &[u8], divisions: &[u16]) -> String {
    let text = |numbers: Vec<String>| numbers.join(" ");
    format!(
        "{};{}",
        text(sizes.iter().map(u8::to_string).collect()),
        text(divisions.iter().map(u16::to_string).collect())
    )
}

fn read_of(run: &RunCall, trail: Vec<u8>, record: u64) -> ReadCall {
    ReadCall { sizes: run.sizes.clone(), divisions: run.divisions.clone(), start: run.start.clone(), trail, record }
}

/// The whole trail of the path over one label, on a grid of one block of two indices, and the reading of its third
/// record.
fn third_record(division: u16) -> ReadCall {
    let points = division as usize + 1;
    let (sizes, divisions, start) = (vec![2], vec![division], vec![division, 0]);
    let run = RunCall { sizes, divisions, start, labels: vec![2; points], budget: u64::MAX, answer: 4 };
    let (mut answer, mut trail) = ([0; 4], vec![0; MOST_TRAIL]);
    let written = Paper.write(&TrailCall { run: run.clone(), room: MOST_TRAIL }, &mut answer, &mut trail);
    trail.truncate(written.bytes.expect("a trail"));
    read_of(&run, trail, 3)
}

/// The table of one label, whose path goes from the first corner to the other.
fn straight_run() -> RunCall {
    RunCall {
        sizes: vec![2],
        divisions: vec![59_999],
        start: vec![59_999, 0],
        labels: vec![2; 60_000],
        budget: u64::MAX,
        answer: 4,
    }
}

/// The run on a built-in game's labels, from the first corner.
fn game_run(game: usize) -> RunCall {
    let (sizes, divisions) = (GAMES[game].sizes, GAME_DIVISIONS[game]);
    let grid = Grid::new(sizes, divisions).expect("a grid");
    let mut labels = vec![0; grid.points];
    games::fill(&grid, GAMES[game].losses, &mut labels);
    let (start, answer) = (grid.first_corner()[..grid.m].to_vec(), (grid.n() + 1) * grid.m);
    RunCall { sizes: sizes.to_vec(), divisions: divisions.to_vec(), start, labels, budget: grid.bound(), answer }
}

/// The labelling and the run of each level of a refinement.
fn one_by_one(implementation: &dyn Implementation, call: &RefineCall) -> Vec<(LabelCall, RunCall)> {
    let mut levels = Vec::new();
    let (sizes, losses, mut start) = (&call.sizes, &call.losses, call.start.clone());
    for grid in call.game().grids().expect("accepted grids") {
        let divisions = grid.divisions[..grid.blocks].to_vec();
        let label = LabelCall {
            sizes: sizes.clone(),
            divisions: divisions.clone(),
            losses: losses.clone(),
            buffer: grid.points,
        };
        let mut labels = vec![0; grid.points];
        implementation.label(&label, &mut labels).expect("a labelling");
        let (budget, answer) = (grid.bound(), (grid.n() + 1) * grid.m);
        let run = RunCall { sizes: sizes.clone(), divisions, start, labels, budget, answer };
        let mut vertices = vec![0; answer];
        implementation.run(&run, &mut vertices);
        start = vertices[..grid.m].iter().map(|&number| number.wrapping_mul(call.factor as u16)).collect();
        levels.push((label, run));
    }
    levels
}
/// The run with the last corner as w, and a distance that lists all.
fn near_run(run: RunCall) -> NearCall {
    let grid = Grid::new(&run.sizes, &run.divisions).expect("a grid");
    let mut w = vec![0; grid.m];
    grid.ranges().zip(grid.divisions).for_each(|(range, division)| w[range.end - 1] = division);
    NearCall { run, w, distance: u64::MAX, list: grid.points }
}
/// The game with the most losses: they go through the numbers from 1 to 1,000.
fn own_game() -> LabelCall {
    let (sizes, divisions) = (vec![3, 3, 3, 3, 2, 2], vec![2; 6]);
    let losses = (0..MOST_LOSSES).map(|at| 1 + (at * 7919 % 1000) as u16).collect();
    let buffer = Grid::new(&sizes, &divisions).expect("a grid").points;
    LabelCall { sizes, divisions, losses, buffer }
}

fn own_name(sizes: &[u8], divisions: &[u16]) -> String {
    format!("own game, {}, {} losses", grid_name(sizes, divisions), MOST_LOSSES)
}

fn main() {
    #[allow(unused_mut)]
    let mut implementations: Vec<Box<dyn Implementation>> = vec![Box::new(Paper)];
    #[cfg(feature = "proved")]
    implementations.push(Box::new(programs::proved::Proved));
    let benchmark = Benchmark { implementations, text: std::env::args().nth(1).unwrap_or_default() };
    println!("median of {REPETITIONS} repetitions (quartiles, least); ratios to the first\n\nruns, questions included");
    let straight = straight_run();
    benchmark.run("2;59999, one label", &straight);
    for (sizes, divisions, from, seed, rounds) in LONG_RUNS {
        benchmark.run(&grid_name(sizes, divisions), &long_run(sizes, divisions, from, seed, rounds));
    }
    for game in 0..GAMES.len() {
        benchmark.run(
            &format!("game {}, {}", game + 1, grid_name(GAMES[game].sizes, GAME_DIVISIONS[game])),
            &game_run(game),
        );
    }
    println!("\nthe questions alone (budget 0)");
    benchmark.run("2;59999, 60,000 labels", &RunCall { budget: 0, ..straight.clone() });
    benchmark.run("3 3 3;7 7 8, 58,320 labels", &RunCall { budget: 0, ..game_run(1) });
    println!("\nruns near the last corner, every visited vertex listed");
    benchmark.near("near, 2;59999, one label", &[near_run(straight.clone())]);
    for (sizes, divisions, from, seed, rounds) in LONG_RUNS {
        let name = format!("near, {}", grid_name(sizes, divisions));
        let calls =
            benchmark.tables(&name, sizes, divisions, from, seed, rounds).into_iter().map(near_run).collect::<Vec<_>>();
        benchmark.near(&name, &calls);
    }
    println!("\nruns that write a trail, and the reading of its last record");
    benchmark.trail("trail, 2;59999, one label", &[straight.clone()]);
    for (sizes, divisions, from, seed, rounds) in LONG_RUNS {
        let name = format!("trail, {}", grid_name(sizes, divisions));
        benchmark.trail(&name, &benchmark.tables(&name, sizes, divisions, from, seed, rounds));
    }
    println!("\nthe third record of a trail, on grids with few and many points");
    for division in [3, 300, 59_999] {
        benchmark.read(&format!("read, 2;{division}"), &third_record(division));
    }
    println!("\nlabelling");
    for game in 0..GAMES.len() {
        let points = Grid::new(GAMES[game].sizes, GAME_DIVISIONS[game]).expect("a grid").points;
        let name = format!("game {}, {}", game + 1, grid_name(GAMES[game].sizes, GAME_DIVISIONS[game]));
        benchmark.label(&name, &LabelCall::of_game(game + 1, GAME_DIVISIONS[game], points));
    }
    println!("\nthe boundary table of a table, questions included");
    for (sizes, divisions) in BOUNDARY_GRIDS {
        let points = Grid::new(sizes, divisions).expect("a grid").points;
        let (sizes, divisions, labels) = (sizes.to_vec(), divisions.to_vec(), vec![1; points]);
        benchmark.boundary(
            &format!("boundary of {}", grid_name(&sizes, &divisions)),
            &BoundaryCall { sizes, divisions, labels, buffer: points },
        );
    }
    let own = own_game();
    benchmark.label(&own_name(&own.sizes, &own.divisions), &own);
    println!("\nchecking all n + 1 points of a simplex, the last first");
    for (sizes, divisions) in [(&[16u8][..], &[1u16][..]), (&[3, 3, 3, 3, 2, 2], &[1; 6])] {
        benchmark.check(&grid_name(sizes, divisions), &whole_simplex(sizes, divisions));
    }
    println!("\nrefinements, each division doubled as often as P allows");
    for game in 1..=GAMES.len() {
        let call = refinements::of_game(game);
        benchmark.refine(&format!("game {game}, {} levels, last P {}", call.levels, call.buffer), &call);
    }
    println!("\nslip to sheet");
    benchmark.sheet("document 01's example", &[4, 2, 2, 2, 1, 0, 1, 0, 2, 2, 2, 4]);
    benchmark.sheet("2;59999, one label", &straight.slip());
    for game in 0..GAMES.len() {
        let name = format!("game {}, {}", game + 1, grid_name(GAMES[game].sizes, GAME_DIVISIONS[game]));
        let fields = Fields {
            sizes: GAMES[game].sizes,
            divisions: GAME_DIVISIONS[game],
            game: Some(game as u8 + 1),
            ..Fields::default()
        };
        benchmark.sheet(&name, &fields.bytes());
    }
    for divisions in [&own.divisions[..], &[1; 6]] {
        let fields = Fields { sizes: &own.sizes, divisions, losses: Some(&own.losses), ..Fields::default() };
        benchmark.sheet(&own_name(&own.sizes, divisions), &fields.bytes());
    }
}
