//! Holds what the library said and left against what is due.

use hosts::plain::Refusal;
use linked::library::{Answer, Values};
use std::fmt::Debug;
use std::hint::black_box;
use std::process::exit;

/// Ends the program at the first difference, with all that is needed to look into it. The answers come with
/// the memory that has to be there after the call, and the memory that the library left.
pub fn settle<M: Debug + PartialEq, T: Debug + Values>(
    input: impl FnOnce() -> String,
    (expected, due): (&Result<T, Refusal>, &M),
    (answer, left): (&Answer, &M),
) {
    let due_answer = Answer::due(expected);
    let is_same = *answer == due_answer;
    // The library may have written behind a shared reference, so the memory is read afresh.
    let is_left_as_due = due == black_box(left);
    if is_same && is_left_as_due {
        return;
    }
    println!("{}", input());
    if !is_left_as_due {
        println!("memory afterwards, expected: {due:?}");
        println!("memory afterwards, library:  {left:?}");
    }
    println!("expected: {expected:?}, which is {}", in_words(&due_answer));
    println!("library:  {}", in_words(answer));
    exit(1);
}

fn in_words(Answer { code, out }: &Answer) -> String {
    let (number, place) = (code % 256, code / 256);
    format!("{code} ({number} + 256 * {place}) with out {out:x?}")
}
