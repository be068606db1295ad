//! Images for a person: made from a listing, shown as one, or answered as the program would.

use hosts::listing::{image_of, shown, what_is_wrong};
use hosts::plain::image::{answer, bytes_of, image_in};
use std::io::{stdin, stdout, Read, Write};
use std::process::exit;

const HELP: &str = include_str!("image.txt");

fn main() {
    let arguments: Vec<String> = std::env::args().skip(1).collect();
    let [verb, files @ ..] = &arguments[..] else {
        print!("{HELP}");
        return;
    };
    let run: fn(&[u8]) -> Result<Vec<u8>, String> = match verb.as_str() {
        "make" => make,
        "show" => show,
        "answer" => |bytes| Ok(answer(bytes).into_bytes()),
        _ => give_up("usage: image make|show|answer [FILE]; image alone prints more"),
    };
    let input = match files {
        [] => from_standard_input(),
        [file] => std::fs::read(file).unwrap_or_else(|error| give_up(&format!("{file}: {error}"))),
        _ => give_up("one file at a time"),
    };
    match run(&input) {
        // Where nobody reads on, as in `image show | head`, there is nothing left to do.
        Ok(output) => drop(stdout().write_all(&output)),
        Err(reason) => give_up(&reason),
    }
}

fn make(listing: &[u8]) -> Result<Vec<u8>, String> {
    let listing = std::str::from_utf8(listing).map_err(|_| "a listing is text in UTF-8")?;
    let image = image_of(listing).map_err(|fault| fault.to_string())?;
    Ok(bytes_of(&image))
}

fn show(bytes: &[u8]) -> Result<Vec<u8>, String> {
    match image_in(bytes) {
        Some(image) => Ok(shown(&image).into_bytes()),
        None => Err(format!("no image: {}", what_is_wrong(bytes).unwrap_or_default())),
    }
}

fn from_standard_input() -> Vec<u8> {
    let mut input = Vec::new();
    if stdin().read_to_end(&mut input).is_err() {
        give_up("standard input cannot be read");
    }
    input
}

fn give_up(reason: &str) -> ! {
    eprintln!("{reason}");
    exit(2)
}
