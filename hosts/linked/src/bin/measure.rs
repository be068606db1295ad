//! Times the library's check and collection on full heaps, beside a walk that judges nothing and a plain
//! compactor that checks nothing, and the lookup of a new place in their tables. Not a test.

use hosts::plain::{self, Counts};
use hosts::random::collections::Collection;
use hosts::random::heaps::{good, Mix};
use hosts::random::orders::{ascending, waits_of};
use hosts::random::Random;
use linked::compactor::compact;
use linked::library::{self, Answer};
use std::hint::black_box;
use std::time::Instant;

const HEAPS: usize = 16;
const ROUNDS: usize = 400;
const HEAP_WORDS: usize = 8192;
const ROOTS: usize = 64;
const SHARES: [(&str, usize); 3] = [("one quarter", 25), ("one half", 50), ("nine tenths", 90)];

/// A way to go over a heap, and what it is called in the table.
type Engine = (&'static str, fn(&mut Collection));

/// The columns of the table; `print_row` adds the ratio of the last two.
const ENGINES: [Engine; 4] = [
    ("bare walk", run_walk),
    ("check", run_check),
    ("collection", run_collection),
    ("plain compactor", run_compactor),
];

fn main() {
    println!("{HEAPS} heaps of {HEAP_WORDS} words for each share, {ROUNDS} rounds; microseconds per call");
    print!("{:<12} {:<8}", "live words", "rounds");
    for (name, _) in ENGINES {
        print!(" {name:>15}");
    }
    println!(" {:>10} to plain", "collection");
    let mut random = Random::new(1);
    for (share, percent) in SHARES {
        let heaps = make_heaps(&mut random, percent);
        heaps.iter().for_each(verify);
        let rounds = time(&heaps);
        print_row(share, "median", rounds.each_ref().map(|times| times[ROUNDS / 2]));
        print_row(share, "minimum", rounds.each_ref().map(|times| times[0]));
    }
    let tables = make_tables(&mut random, 50);
    let times = time_lookups(&tables);
    println!(
        "one old-to-new lookup, one half live: median {:.2}, minimum {:.2} nanoseconds",
        times[ROUNDS / 2],
        times[0]
    );
}

fn print_row(share: &str, which: &str, times: [f64; ENGINES.len()]) {
    print!("{share:<12} {which:<8}");
    for time in times {
        print!(" {time:>15.2}");
    }
    let [.., collection, plain_compactor] = times;
    println!(" {:>19.2}", collection / plain_compactor);
}

/// The heaps of one share, with ascending orders.
fn make_heaps(random: &mut Random, live: usize) -> Vec<Collection> {
    let mix = Mix {
        records: 80,
        record_fields: (2, 8),
        raw_words: (1, 64),
        large_raws: 5,
        references: 50,
        live,
    };
    (0..HEAPS)
        .map(|_| {
            let input = good(random, HEAP_WORDS, HEAP_WORDS, ROOTS, &mix);
            let order = ascending(&waits_of(&plain::live_table(
                &input.heap,
                input.top,
                &input.marks,
            )));
            Collection::new(random, input, order)
        })
        .collect()
}

/// Each heap must be accepted, since a refusal would end a call early, and both ways to collect it must leave
/// the same heap, roots and marks.
fn verify(before: &Collection) {
    let expected = plain::check(&before.heap, before.top, &before.roots, &before.marks);
    let checked = library::check(&before.heap, before.top, &before.roots, &before.marks);
    assert!(expected.is_ok(), "a good heap is refused: {expected:?}");
    assert_eq!(checked, Answer::due(&expected));
    assert_eq!(Ok(walk(before).0), expected);
    let mut left = before.clone();
    let collected = collect(&mut left);
    let mut due = before.clone();
    let live = compact(&mut due.heap, due.top as usize, &mut due.roots, &mut due.marks);
    assert_eq!((collected.code, collected.out[0]), (0, live as u64));
    assert!(
        left.heap == due.heap && left.roots == due.roots && left.marks == due.marks,
        "library and plain compactor leave different heaps, roots or marks"
    );
}

/// The sorted microseconds per call of each engine, one for each round.
fn time(heaps: &[Collection]) -> [Vec<f64>; ENGINES.len()] {
    let mut copies = heaps.to_vec();
    let mut rounds = ENGINES.map(|_| Vec::with_capacity(ROUNDS));
    for _ in 0..ROUNDS {
        for ((_, run), times) in ENGINES.iter().zip(&mut rounds) {
            copies
                .iter_mut()
                .zip(heaps)
                .for_each(|(copy, heap)| restore(copy, heap));
            times.push(time_round(&mut copies, *run));
        }
    }
    for times in &mut rounds {
        times.sort_by(f64::total_cmp);
    }
    rounds
}

/// All that a collection writes, as it was.
fn restore(copy: &mut Collection, heap: &Collection) {
    copy.heap.copy_from_slice(&heap.heap);
    copy.roots.copy_from_slice(&heap.roots);
    copy.marks.copy_from_slice(&heap.marks);
    copy.live.copy_from_slice(&heap.live);
    copy.offsets.copy_from_slice(&heap.offsets);
}

/// One engine over all heaps once, each a fresh copy.
fn time_round(copies: &mut [Collection], run: fn(&mut Collection)) -> f64 {
    let start = Instant::now();
    for copy in copies.iter_mut() {
        run(black_box(copy));
    }
    start.elapsed().as_secs_f64() * 1e6 / copies.len() as f64
}

fn run_walk(copy: &mut Collection) {
    black_box(walk(copy));
}

fn run_check(copy: &mut Collection) {
    black_box(library::check(&copy.heap, copy.top, &copy.roots, &copy.marks));
}

fn run_collection(copy: &mut Collection) {
    black_box(collect(copy));
}

fn run_compactor(copy: &mut Collection) {
    black_box(compact(
        &mut copy.heap,
        copy.top as usize,
        &mut copy.roots,
        &mut copy.marks,
    ));
}

fn collect(copy: &mut Collection) -> Answer {
    library::collect(
        &mut copy.heap,
        copy.top,
        &mut copy.roots,
        &mut copy.marks,
        &copy.order,
        &mut copy.live,
        &mut copy.offsets,
    )
}

/// Counts live words and marked objects and comes by every reference, but judges none of it.
/// The places referred to are added up, so that the fields have to be read.
fn walk(input: &Collection) -> (Counts, u64) {
    let mut counts = Counts { live: 0, objects: 0 };
    let mut places: u64 = 0;
    let mut place = 0;
    while place < input.top as usize {
        let header = input.heap[place];
        let end = place + 1 + (header / 4) as usize;
        if input.marks[place / 64] >> (place % 64) & 1 == 1 {
            counts.live += (end - place) as u64;
            counts.objects += 1;
            if header.is_multiple_of(4) {
                places += add_references(&input.heap[place + 1..end]);
            }
        }
        place = end;
    }
    (counts, places)
}

fn add_references(fields: &[u32]) -> u64 {
    fields
        .iter()
        .filter(|&&word| word % 2 == 1 && word != u32::MAX)
        .map(|&word| u64::from(word / 2))
        .sum()
}

/// A heap's tables, and its live places in any order.
struct Tables {
    live: Vec<u64>,
    offsets: Vec<u32>,
    places: Vec<u32>,
}

/// Each lookup must find what the reading finds.
fn make_tables(random: &mut Random, live: usize) -> Vec<Tables> {
    let heaps = make_heaps(random, live);
    let make = |heap: &Collection| {
        let live = plain::live_table(&heap.heap, heap.top, &heap.marks);
        let offsets = plain::offset_table(&live);
        let mut places: Vec<u32> = (0..heap.top)
            .filter(|&place| plain::bit(&live, u64::from(place)))
            .collect();
        random.shuffle(&mut places);
        for &place in &places {
            let expected = plain::old_to_new(&live, &offsets, place);
            assert_eq!(
                library::old_to_new(&live, &offsets, place),
                Answer::due(&expected)
            );
        }
        Tables {
            live,
            offsets,
            places,
        }
    };
    heaps.iter().map(make).collect()
}

/// The sorted nanoseconds per lookup, one for each round; a round looks up every live place of all heaps once.
fn time_lookups(tables: &[Tables]) -> Vec<f64> {
    let lookups: usize = tables.iter().map(|tables| tables.places.len()).sum();
    let mut times: Vec<f64> = (0..ROUNDS)
        .map(|_| {
            let start = Instant::now();
            for Tables {
                live,
                offsets,
                places,
            } in tables
            {
                for &place in places {
                    black_box(library::old_to_new(live, offsets, black_box(place)));
                }
            }
            start.elapsed().as_secs_f64() * 1e9 / lookups as f64
        })
        .collect();
    times.sort_by(f64::total_cmp);
    times
}
