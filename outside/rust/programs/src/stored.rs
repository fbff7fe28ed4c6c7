//! The stored cases, each from a `call` line to the next: lines of a word and its values, then `expect` and the lines
//! expected.

use crate::calls::{spaced, BoundaryCall, Call, CheckCall, Fields, LabelCall, RunCall, ShelfCall, ShelfCalls};
use crate::near::NearCall;
use crate::refinements::{self, RefineCall};
use crate::trails::{ReadCall, TrailCall};
use std::collections::HashMap;

pub struct Case {
    pub name: String,
    pub call: Call,
    pub expect: Vec<String>,
}

/// The cases of a file.
pub fn read(text: &str) -> Vec<Case> {
    let lines: Vec<&str> = text.lines().collect();
    let begins: Vec<usize> = (0..lines.len()).filter(|&at| lines[at].starts_with("call ")).collect();
    let ends = begins.iter().skip(1).copied().chain([lines.len()]);
    begins.iter().zip(ends).map(|(&begin, end)| read_case(&lines[begin..end])).collect()
}

fn read_case(lines: &[&str]) -> Case {
    let mut lines = lines.iter().copied();
    let mut values = HashMap::new();
    for line in lines.by_ref().take_while(|&line| line != "expect") {
        let (word, value) = line.split_once(' ').unwrap_or((line, ""));
        values.insert(word, value);
    }
    let name = values.get("name").unwrap_or(&"").to_string();
    let mut expect: Vec<String> = lines.take_while(|&line| line != "later").map(str::to_string).collect();
    let list = |word: &str| numbers(values.get(word).copied().unwrap_or(""));
    let bytes = |word: &str| list(word).iter().map(|&number| number as u8).collect::<Vec<u8>>();
    let pairs = |word: &str| list(word).iter().map(|&number| number as u16).collect::<Vec<u16>>();
    let given = |word: &str| values.get(word).is_some_and(|&value| value != "-");
    let (sizes, divisions) = (bytes("sizes"), pairs("d"));
    let call = match values["call"] {
        word @ ("run" | "near" | "run-with-trail") => {
            let (budget, answer) = (list("budget")[0], list("answer")[0] as usize);
            let run = RunCall { sizes, divisions, start: pairs("start"), labels: bytes("labels"), budget, answer };
            match word {
                "run" => Call::Run(run),
                "near" => Call::Near(NearCall {
                    run,
                    w: pairs("w"),
                    distance: list("distance")[0],
                    list: list("list")[0] as usize,
                }),
                _ => Call::Trail(TrailCall { run, room: list("trail")[0] as usize }),
            }
        }
        "label" if given("game") => {
            Call::Label(LabelCall::of_game(list("game")[0] as usize, &divisions, list("buffer")[0] as usize))
        }
        "label" if given("game") => {
            Call::Label(LabelCall::of_game(list("game")[0] as usize, &divisions, list("buffer")[0] as usize))
        }
        "read-trail" => {
            let trail = from_hex(values["trail"]);
            Call::Read(ReadCall { sizes, divisions, start: pairs("start"), trail, record: list("record")[0] })
        }
        "refine" => {
            let one = |word: &str| list(word)[0] as usize;
            Call::Refine(RefineCall {
                sizes,
                divisions,
                start: pairs("start"),
                losses: pairs("losses"),
                factor: one("k"),
                levels: one("levels"),
                buffer: one("buffer"),
                answer: one("answer"),
            })
        }
        "check" => Call::Check(CheckCall { sizes, divisions, labels: bytes("labels"), points: pairs("points") }),
        "boundary" => Call::Boundary(BoundaryCall {
            sizes,
            divisions,
            labels: bytes("labels"),
            buffer: list("buffer")[0] as usize,
        }),
        "label" => {
            Call::Label(LabelCall { sizes, divisions, losses: pairs("losses"), buffer: list("buffer")[0] as usize })
        }
        "shelf" => {
            let one = |word: &str| values.get(word).map(|sheet| format!("{word} {sheet}"));
            let script =
                values.get("script").map(|script| script.to_string()).or(one("file")).or(one("ask")).expect("a call");
            Call::Shelf(ShelfCalls {
                list: pairs("list"),
                count: list("count")[0] as usize,
                calls: script.split(", ").map(shelf_call).collect(),
            })
        }
        "slip" => {
            let (start, labels, losses) = (pairs("start"), bytes("labels"), pairs("losses"));
            let composed = Fields {
                sizes: &sizes,
                divisions: &divisions,
                start: given("start").then_some(&start[..]),
                budget: given("budget").then(|| list("budget")[0]),
                labels: given("labels").then_some(&labels[..]),
                game: given("game").then(|| list("game")[0] as u8),
                losses: given("losses").then_some(&losses[..]),
            };
            let slip = values.get("slip").map(|hex| from_hex(hex));
            if let (Some(slip), true) = (&slip, given("sizes")) {
                assert_eq!(*slip, composed.bytes(), "the slip is that of the fields");
            }
            Call::Slip(slip.unwrap_or_else(|| composed.bytes()))
        }
        other => panic!("unknown call {other}"),
    };
    // A list of numbers is written out, where the case has counts of equal ones.
    let written_out = match &call {
        Call::Shelf(_) => Some("list"),
        Call::Boundary(_) => Some("labels-after"),
        _ => None,
    };
    if let (Some(word), Some(line)) = (written_out, expect.last_mut()) {
        if let Some(values) = line.strip_prefix(word) {
            *line = format!("{word} {}", spaced(&numbers(values)));
        }
    }
    if let Call::Refine(_) = call {
        expect = expect.iter().map(|line| refinements::expected(line)).collect();
    }
    Case { name, call, expect }
}

fn shelf_call(text: &str) -> ShelfCall {
    let (word, sheet) = text.split_once(' ').expect("a call and its sheet");
    let sheet = sheet.parse().expect("a sheet");
    match word {
        "file" => ShelfCall::File(sheet),
        "ask" => ShelfCall::Ask(sheet),
        other => panic!("unknown call {other}"),
    }
}

/// Numbers with spaces between; `5x2` stands for five times 2, and `-` for none.
fn numbers(text: &str) -> Vec<u64> {
    let parse = |word: &str| word.parse::<u64>().expect("a number");
    let mut numbers = Vec::new();
    for word in text.split_whitespace().filter(|&word| word != "-") {
        match word.split_once('x') {
            Some((count, number)) => numbers.extend(std::iter::repeat(parse(number)).take(parse(count) as usize)),
            None => numbers.push(parse(word)),
        }
    }
    numbers
}

fn from_hex(text: &str) -> Vec<u8> {
    (0..text.len() / 2).map(|at| u8::from_str_radix(&text[2 * at..2 * at + 2], 16).expect("two digits")).collect()
}
