//! Writes the input of the program `vectors`, and what it has to write for it by the plain reading:
//! the edge cases, then random ones of all kinds and half as many images; or one kind alone.

use hosts::cases::edges::edges;
use hosts::cases::images::{any_image_case, any_short_image_case, image_edges};
use hosts::cases::{any_calls_case, any_case, any_collection_case, Case};
use hosts::random::Random;
use std::collections::BTreeMap;
use std::fs::write;
use std::process::exit;

/// Edge cases, a maker of random ones, and how many of these.
type Part = (fn() -> Vec<Case>, fn(&mut Random) -> Case, u64);

fn main() {
    let arguments: Vec<String> = std::env::args().skip(1).collect();
    let [cases, seed, input, output, kinds @ ..] = &arguments[..] else {
        give_up("usage: vectors CASES SEED STDIN_FILE STDOUT_FILE [collections|calls|images|long-images]");
    };
    let (Ok(cases), Ok(seed)) = (cases.parse::<u64>(), seed.parse::<u64>()) else {
        give_up("CASES and SEED are numbers");
    };
    let mut files = Files::default();
    for (edges, make, cases) in parts(kinds, cases) {
        for case in edges() {
            files.add(case);
        }
        let mut random = Random::new(seed);
        for _ in 0..cases {
            files.add(make(&mut random));
        }
    }
    if write(input, &files.input).is_err() || write(output, &files.output).is_err() {
        give_up("a file cannot be written");
    }
    for (sort, times) in &files.tally {
        println!("{times:>8} {sort}");
    }
}

/// Each part has its own random numbers, so that more kinds in one leave the others as they are.
fn parts(kinds: &[String], cases: u64) -> Vec<Part> {
    match kinds {
        [] => vec![
            (edges, any_case, cases),
            (image_edges, any_short_image_case, cases / 2),
        ],
        [kind] if kind == "collections" => vec![(edges, any_collection_case, cases)],
        [kind] if kind == "calls" => vec![(edges, any_calls_case, cases)],
        [kind] if kind == "images" => vec![(image_edges, any_short_image_case, cases)],
        [kind] if kind == "long-images" => vec![(image_edges, any_image_case, cases)],
        _ => give_up("the kinds to be had alone are: collections, calls, images, long-images"),
    }
}

fn give_up(reason: &str) -> ! {
    eprintln!("{reason}");
    exit(2)
}

/// Both files, and how often each sort of answer is in them.
#[derive(Default)]
struct Files {
    input: Vec<u8>,
    output: String,
    tally: BTreeMap<String, u64>,
}

impl Files {
    fn add(&mut self, case: Case) {
        let length = case.bytes.len() as u32;
        self.input.extend(length.to_le_bytes());
        self.input.extend(case.bytes);
        self.output.push_str(&case.line);
        self.output.push('\n');
        for sort in case.answers.into_iter().chain([case.sort]) {
            *self.tally.entry(sort).or_default() += 1;
        }
    }
}
