//! Tests of the generated cases: good ones are accepted, each outcome is reached, in lists at each
//! field that can have it, lengths are kept, those at the limits have their outcomes.

use crate::answer::Refusal;
use crate::check::{Checker, Tables};
use crate::limit_cases::{LISTS, MESSAGES};
use crate::list_cases::list;
use crate::message_cases::{good_message, message};
use crate::random::Random;
use crate::selftest::Bench;
use crate::writer::write;
use std::collections::BTreeSet;

pub fn run(bench: &mut Bench) {
    good_messages(bench);
    bench.same(
        "messages",
        numbers_of_messages(2000, 65_536),
        numbers(&[2, 3, 51, 52, 53, 54, 55, 56, 57, 58, 59, 6, 7, 8, 9]),
    );
    let long = numbers_of_messages(60, 1_100_000);
    bench.holds("long messages", long.is_superset(&numbers(&[1, 4])));
    lists(bench);
    let short = (0..200).all(|case| message(5, case, 900).len() <= 900);
    bench.holds("short messages", short);
    at_the_limits(bench);
}

/// The numbers that each field of a creditor line can be refused with.
const CREDITOR_NUMBERS: [&[u32]; 7] = [
    &[51, 52, 53],
    &[55],
    &[51, 52],
    &[51, 52],
    &[57, 58],
    &[57],
    &[57, 58],
];

/// The same of a collection.
const COLLECTION_NUMBERS: [&[u32]; 11] = [
    &[56],
    &[56],
    &[54],
    &[55],
    &[51, 52, 53],
    &[51, 52, 53],
    &[55],
    &[57],
    &[51, 52],
    &[57, 58],
    &[51, 52],
];

fn lists(bench: &mut Bench) {
    let refusals = refusals_of_lists(1500);
    let found: BTreeSet<u32> = refusals.iter().map(|refusal| refusal.number).collect();
    let due = [21, 22, 23, 24, 25, 27, 51, 52, 53, 54, 55, 56, 57, 58];
    bench.same("lists", found, BTreeSet::from(due));
    bench.holds("some lists are written", refusals.len() < 1500);
    let by_line = refusals.into_iter().partition(|refusal| refusal.place == 1);
    let (creditor, collections): (Vec<Refusal>, Vec<Refusal>) = by_line;
    let due = fields(&CREDITOR_NUMBERS);
    bench.same("fields of the creditor", found_fields(&creditor), due);
    let due = fields(&COLLECTION_NUMBERS);
    bench.same("fields of a collection", found_fields(&collections), due);
}

/// Fields from 1, each with every number that it can be refused with.
fn fields(numbers: &[&[u32]]) -> BTreeSet<(usize, u32)> {
    let of_fields = numbers.iter().zip(1..);
    of_fields
        .flat_map(|(numbers, field)| numbers.iter().map(move |&number| (field, number)))
        .collect()
}

fn found_fields(refusals: &[Refusal]) -> BTreeSet<(usize, u32)> {
    refusals
        .iter()
        .filter_map(|refusal| Some((refusal.field?, refusal.number)))
        .collect()
}

fn at_the_limits(bench: &mut Bench) {
    let checker = Checker::new();
    let random = &mut Random::new(4, 0);
    let messages = MESSAGES.iter().map(|make| {
        let answer = checker.check(&make(random), Tables::LONG_ENOUGH);
        answer.map_or_else(|refusal| stage(refusal.number), |_| 0)
    });
    let due = [
        2, 0, 0, 0, 1, 2, 2, 1, 0, 3, 0, 4, 4, 0, 3, 0, 0, 2, 51, 6, 7, 8, 9, 59, 0,
    ];
    bench.same("messages at the limits", messages.collect::<Vec<_>>(), due);
    let lists = LISTS.iter().map(|make| {
        let (list, ceiling) = make(random);
        let answer = write(&list, ceiling, usize::MAX);
        answer.map_or_else(|refusal| refusal.number, |_| 0)
    });
    let due = [
        24, 24, 0, 22, 0, 22, 22, 22, 0, 27, 27, 0, 25, 0, 23, 23, 23, 21, 21, 21,
    ];
    bench.same("lists at the limits", lists.collect::<Vec<_>>(), due);
}

/// The first number of the stage of a refusal: 51 to 58 are one stage.
fn stage(number: u32) -> u32 {
    match number {
        51..=58 => 51,
        other => other,
    }
}

/// The refusals' numbers, and 0 for success.
fn numbers(refusals: &[u32]) -> BTreeSet<u32> {
    [&[0], refusals].concat().into_iter().collect()
}

fn good_messages(bench: &mut Bench) {
    let checker = Checker::new();
    let wrong = (0..1000).find(|&case| {
        let message = good_message(65_536, &mut Random::new(2, case));
        checker.check(&message, Tables::LONG_ENOUGH).is_err()
    });
    bench.same("good messages", wrong, None);
}

fn numbers_of_messages(count: u64, most: usize) -> BTreeSet<u32> {
    let checker = Checker::new();
    let messages = (0..count).map(|case| message(1, case, most));
    let answers = messages.map(|message| checker.check(&message, Tables::LONG_ENOUGH));
    answers
        .map(|answer| answer.map_or_else(|r| r.number, |_| 0))
        .collect()
}

fn refusals_of_lists(count: u64) -> Vec<Refusal> {
    let lists = (0..count).map(|case| list(1, case));
    let answers = lists.map(|(list, ceiling)| write(&list, ceiling, usize::MAX));
    answers.filter_map(|answer| answer.err()).collect()
}
