//! Compares the static library with the plain reading on random inputs, answer by answer, and on random call
//! sequences, call by call.

mod inputs;
mod sequences;
mod settle;
mod tally;

use hosts::random::collections::any_collection;
use hosts::random::damage::any_input;
use hosts::random::tables::any_question;
use hosts::random::Random;
use inputs::Inputs;
use sequences::Sequences;
use std::process::exit;

fn main() {
    let Some([checks, lookups, collections, sequences, seed]) = arguments() else {
        eprintln!("usage: compare CHECKS LOOKUPS COLLECTIONS SEQUENCES SEED (five numbers)");
        exit(2);
    };
    let mut random = Random::new(seed);
    let mut inputs = Inputs::new();
    for number in 0..checks {
        inputs.compare_check(number, &any_input(&mut random));
    }
    for number in 0..lookups {
        inputs.compare_lookups(number, &any_question(&mut random));
    }
    for number in 0..collections {
        inputs.compare_collection(number, &any_collection(&mut random));
    }
    let mut calls = Sequences::new();
    for number in 0..sequences {
        calls.compare(number, &mut random);
    }
    let tallies: Vec<String> = inputs
        .tallies()
        .chain(calls.tallies())
        .map(|tally| tally.to_string())
        .collect();
    println!("same answers: {}", tallies.join("; "));
}

fn arguments() -> Option<[u64; 5]> {
    let numbers: Option<Vec<u64>> = std::env::args().skip(1).map(|text| text.parse().ok()).collect();
    numbers?.try_into().ok()
}
