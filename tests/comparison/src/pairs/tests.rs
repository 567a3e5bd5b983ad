//! Tests of the pairs of refusals: the earlier wins, the later holds alone, and the list is whole.

use crate::pairs::{pairs, scene, scene_of_twelve, COVERED};
use reckoning::programs::trial;
use std::collections::BTreeSet;

fn last_answer(calls: &[u8]) -> u8 {
    let text = String::from_utf8(trial::expected(calls)).unwrap();
    let line = text.lines().last().unwrap();
    line.split(' ').nth(1).unwrap().parse().unwrap()
}

#[test]
fn the_earlier_wins_and_the_later_holds() {
    for pair in pairs() {
        let name = format!("{} of {} with {}", pair.of, pair.earlier, pair.later);
        assert_eq!(last_answer(&pair.both), pair.earlier, "{name}: both");
        assert_eq!(last_answer(&pair.alone), pair.later, "{name}: the later alone");
    }
}

#[test]
fn the_list_is_what_is_covered() {
    let listed: BTreeSet<(u8, u8)> = COVERED
        .iter()
        .flat_map(|&(earlier, later)| later.iter().map(move |&later| (earlier, later)))
        .collect();
    let built = pairs().iter().map(|pair| (pair.earlier, pair.later)).collect();
    assert_eq!(listed, built);
}

#[test]
fn the_scene_is_accepted() {
    for calls in [scene(), scene_of_twelve()] {
        let text = String::from_utf8(trial::expected(&calls)).unwrap();
        assert!(text.lines().all(|line| line.split(' ').nth(1) == Some("0")));
    }
}
