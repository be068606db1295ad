//! That the makers give every answer often, and at many places.

use super::*;
use crate::plain::image::answer;
use std::collections::{BTreeMap, BTreeSet};

#[test]
fn every_answer_is_met_at_many_places() {
    let mut random = Random::new(1);
    let mut times: BTreeMap<String, usize> = BTreeMap::new();
    let mut places: BTreeMap<String, BTreeSet<String>> = BTreeMap::new();
    for _ in 0..6000 {
        let text = answer(&any_image(&mut random));
        let mut words = text.split_whitespace();
        let (Some(first), Some(second), Some(_), Some(fourth)) =
            (words.next(), words.next(), words.next(), words.next())
        else {
            panic!("no answer: {text}");
        };
        // `ok top L objects ..` or `refused N at P`: an accepted image counts by its L.
        let is_accepted = first == "ok";
        let sort = if is_accepted { first } else { second };
        let place = if is_accepted { &text[..12] } else { fourth };
        *times.entry(sort.to_string()).or_default() += 1;
        places
            .entry(sort.to_string())
            .or_default()
            .insert(place.to_string());
    }
    for sort in ["ok", "1", "2", "3", "4", "5", "6", "14"] {
        assert!(times[sort] > 100, "{sort}: {times:?}");
    }
    for sort in ["ok", "2", "3", "4", "5", "6"] {
        assert!(places[sort].len() > 8, "{sort}: {places:?}");
    }
}
