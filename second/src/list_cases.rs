//! Day lists for comparison, each with its ceiling: good ones of every size and mixture of terms,
//! and ones with faults. Text edges are taken in turn, so that a long enough row of cases has them
//! all.

use crate::daylist::{COLLECTION_RULES, CREDITOR_RULES};
use crate::edges::edge_in_turn;
use crate::frames::line;
use crate::list_draft::{any_draft, different_terms, draft, Draft};
use crate::list_faults::{any_collection, two_bad_fields, FRAME_FAULTS, LINE_FAULTS, VALUE_FAULTS};
use crate::profile::{BATCH_LIMIT, CEILING_LIMIT, COLLECTION_LIMIT, MESSAGE_LIMIT};
use crate::random::{turn, Random};
use crate::rules::Rule;
use crate::samples::Size;

/// The list of a case and its ceiling. Twenty cases are a round: eleven of them have a text edge
/// and one an empty text, in turn.
pub fn list(seed: u64, case: u64) -> (Vec<u8>, u64) {
    let random = &mut Random::new(seed, case);
    let (round, place) = (case / 20, case % 20);
    let (list, ceiling) = match place {
        0..=10 => with_edge_in_turn(turn(seed, 11 * round + place), random),
        11 => with_empty_text(round as usize, random),
        12 => with_value_fault(random),
        13..=14 => with_frame_fault(random),
        15..=16 => with_line_fault(random),
        17 => with_two_faults(random),
        18 => good_list(random),
        _ => of_unusual_length(random),
    };
    match random.once_in(20) {
        true => (list, bad_ceiling(random)),
        false => (list, ceiling),
    }
}

fn of_unusual_length(random: &mut Random) -> (Vec<u8>, u64) {
    match random.below(16) {
        0 => (too_long(random), any_ceiling(random)),
        1 => about_the_most(Size::Least, random),
        2 => about_the_most(Size::Most, random),
        3..=8 => about_the_batches(random),
        9..=13 => (tiny(random), any_ceiling(random)),
        _ => (noise(random), any_ceiling(random)),
    }
}

fn any_ceiling(random: &mut Random) -> u64 {
    match random.below(4) {
        0 => random.within(1..=CEILING_LIMIT as usize) as u64,
        _ => random.pick(&[1, 1, 2, 2, 3, 4, 5, 10, 64, CEILING_LIMIT]),
    }
}

fn bad_ceiling(random: &mut Random) -> u64 {
    random.pick(&[
        0,
        0,
        CEILING_LIMIT + 1,
        CEILING_LIMIT + 1,
        1_000,
        1 << 32,
        u64::MAX,
    ])
}

/// A list that is refused by nothing but 27.
pub fn good_list(random: &mut Random) -> (Vec<u8>, u64) {
    let draft = any_draft(random);
    (draft.list(), any_ceiling(random))
}

/// 64 or 65 batches, or nearly: at ceiling 1, or by as many terms, or with terms cut.
fn about_the_batches(random: &mut Random) -> (Vec<u8>, u64) {
    let batches = BATCH_LIMIT + random.pick(&[0, 1, 0, 1, 2, 30]);
    let ceiling = random.pick(&[1, 1, 2, 3]);
    let different = random.pick(&[1, 2, 5, batches]);
    let terms = different_terms(different, random);
    let mut draft = draft(batches, &terms, Size::Least, random);
    draft.give_terms(terms.iter().cycle().cloned());
    let copies = random.within(1..=ceiling as usize);
    draft.collections = vec![draft.collections; copies].concat();
    if random.once_in(4) {
        random.pick(VALUE_FAULTS)(&mut draft, random);
    }
    (draft.list(), ceiling)
}

/// 1,000 or 1,001 collections.
fn about_the_most(size: Size, random: &mut Random) -> (Vec<u8>, u64) {
    let count = COLLECTION_LIMIT + random.pick(&[0, 0, 1, 2]);
    let terms = different_terms(BATCH_LIMIT / 2, random);
    let mut draft = draft(count, &terms, size, random);
    if random.once_in(4) {
        random.pick(VALUE_FAULTS)(&mut draft, random);
    }
    (draft.list(), random.pick(&[1, 100, CEILING_LIMIT]))
}

/// A list of about 1,048,576 bytes.
fn too_long(random: &mut Random) -> Vec<u8> {
    let mut list = any_draft(random).list();
    let length = MESSAGE_LIMIT + random.pick(&[0, 1, 1, 2]);
    list.resize(length, random.pick(b"0\n"));
    list
}

fn tiny(random: &mut Random) -> Vec<u8> {
    let draft = any_draft(random);
    let lines = draft.lines();
    let lists = [
        Vec::new(),
        Vec::new(),
        Vec::new(),
        b"\n".to_vec(),
        b"\n\n".to_vec(),
        b"01".to_vec(),
        b"01\n".to_vec(),
        b"0".to_vec(),
        b"\0".to_vec(),
        lines[0].clone(),
        lines[0].clone(),
        lines[0][..lines[0].len() - 1].to_vec(),
        lines[1].clone(),
        [&lines[0][..], b"\n"].concat(),
        [&lines[0][..], b"02\n"].concat(),
        b"01000000000000000000\n".to_vec(),
        b"0100000000000000\n".to_vec(),
        b"0100000000000000\n02000000000000000000000000000000\n".to_vec(),
        b"0100000000000000\n020000000000000000000000000000\n".to_vec(),
    ];
    random.pick(&lists)
}

fn noise(random: &mut Random) -> Vec<u8> {
    let length = random.below(400);
    let set = random.pick(&[
        &b"0123456789ABCDEF"[..],
        b"0123456789ABCDEF\n",
        b"0123456789abcdefABCDEF \r\n",
    ]);
    random.bytes(set, length)
}

fn with_value_fault(random: &mut Random) -> (Vec<u8>, u64) {
    let mut draft = any_draft(random);
    random.pick(VALUE_FAULTS)(&mut draft, random);
    (draft.list(), any_ceiling(random))
}

fn with_frame_fault(random: &mut Random) -> (Vec<u8>, u64) {
    let mut frames = any_draft(random).frames();
    let index = random.below(frames.len());
    random.pick(FRAME_FAULTS)(&mut frames[index], random);
    let lines: Vec<Vec<u8>> = frames.iter().map(|frame| line(frame)).collect();
    (lines.concat(), any_ceiling(random))
}

fn with_line_fault(random: &mut Random) -> (Vec<u8>, u64) {
    let mut lines = any_draft(random).lines();
    random.pick(LINE_FAULTS)(&mut lines, random);
    (lines.concat(), any_ceiling(random))
}

/// Two bad fields, or a fault of a value and another of a line.
fn with_two_faults(random: &mut Random) -> (Vec<u8>, u64) {
    let mut draft = any_draft(random);
    if random.once_in(2) {
        two_bad_fields(&mut draft, random);
        return (draft.list(), any_ceiling(random));
    }
    random.pick(VALUE_FAULTS)(&mut draft, random);
    let mut lines = draft.lines();
    random.pick(LINE_FAULTS)(&mut lines, random);
    (lines.concat(), any_ceiling(random))
}

/// Every edge of every rule in turn, at some field of its rule.
fn with_edge_in_turn(turn: usize, random: &mut Random) -> (Vec<u8>, u64) {
    let (rule, mut text) = edge_in_turn(&rules_of_the_list(), turn, random);
    text.truncate(255);
    let mut draft = any_draft(random);
    let mut places = texts_of(&mut draft, rule, random);
    let place = random.below(places.len());
    *places.swap_remove(place) = text;
    (draft.list(), any_ceiling(random))
}

/// Every field in turn with a text of length 0.
fn with_empty_text(turn: usize, random: &mut Random) -> (Vec<u8>, u64) {
    let mut draft = any_draft(random);
    match turn % (CREDITOR_RULES.len() + COLLECTION_RULES.len()) {
        field if field < CREDITOR_RULES.len() => draft.creditor.texts[field].clear(),
        field => {
            let collection = any_collection(&mut draft, random);
            collection.texts[field - CREDITOR_RULES.len()].clear();
        }
    }
    (draft.list(), any_ceiling(random))
}

/// The rules of a list's texts, each once.
fn rules_of_the_list() -> Vec<Rule> {
    let mut rules: Vec<Rule> = Vec::new();
    for (rule, _) in CREDITOR_RULES.into_iter().chain(COLLECTION_RULES) {
        if !rules.contains(&rule) {
            rules.push(rule);
        }
    }
    rules
}

/// The texts of a rule, of the creditor and of some collection.
fn texts_of<'a>(draft: &'a mut Draft, wanted: Rule, random: &mut Random) -> Vec<&'a mut Vec<u8>> {
    let index = random.below(draft.collections.len());
    let of_creditor = draft.creditor.texts.iter_mut().zip(CREDITOR_RULES);
    let of_collection = draft.collections[index].texts.iter_mut();
    let all = of_creditor.chain(of_collection.zip(COLLECTION_RULES));
    all.filter(|(_, (rule, _))| *rule == wanted)
        .map(|(text, _)| text)
        .collect()
}
