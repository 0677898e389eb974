//! Messages and lists at the limits: each limit kept and passed, the greatest messages, the longest
//! texts. Their values depend on the seed, their kinds do not.

use crate::address_draft::Addresses;
use crate::address_faults::bad_mix;
use crate::draft::{draft, Draft};
use crate::list_draft::{self, different_terms, Terms};
use crate::other_faults::bad_text;
use crate::profile::{
    BATCH_LIMIT, CEILING_LIMIT, COLLECTION_LIMIT, MESSAGE_LIMIT, TRANSACTION_LIMIT, WHITE_SPACE,
};
use crate::random::Random;
use crate::samples::Size;
use crate::total_faults::{
    wrong_batch_count, wrong_batch_sum, wrong_header_count, wrong_header_sum,
};
use crate::tree::{Presence, Shape, Spacing};

type Message = Vec<u8>;

pub const MESSAGES: &[fn(&mut Random) -> Message] = &[
    |_| Vec::new(),
    |random| few(random),
    |random| filled_up(few(random), MESSAGE_LIMIT - 1, random),
    |random| filled_up(few(random), MESSAGE_LIMIT, random),
    |random| filled_up(few(random), MESSAGE_LIMIT + 1, random),
    |_| vec![b'x'; MESSAGE_LIMIT],
    |_| vec![b' '; MESSAGE_LIMIT],
    |random| filled_up(few(random), 3 * MESSAGE_LIMIT, random),
    |random| compact(&[1; BATCH_LIMIT], random),
    |random| compact(&[1; BATCH_LIMIT + 1], random),
    |random| compact(&[TRANSACTION_LIMIT], random),
    |random| compact(&[TRANSACTION_LIMIT + 1], random),
    |random| compact(&[TRANSACTION_LIMIT / 2, TRANSACTION_LIMIT / 2 + 1], random),
    |random| compact(&shared(TRANSACTION_LIMIT, BATCH_LIMIT), random),
    |random| compact(&shared(TRANSACTION_LIMIT + 1, BATCH_LIMIT + 1), random),
    |random| filled_up(longest_texts(random), MESSAGE_LIMIT, random),
    |random| spaced(random),
    |random| last_byte_lost(random),
    |random| great(bad_text, random),
    |random| great(wrong_batch_count, random),
    |random| great(wrong_batch_sum, random),
    |random| great(wrong_header_count, random),
    |random| great(wrong_header_sum, random),
    |random| great(bad_mix, random),
    |random| filled_up(longest_addresses(random), MESSAGE_LIMIT, random),
];

fn message(batches: &[usize], size: Size, presence: Presence, random: &mut Random) -> Message {
    let shape = Shape {
        batches: batches.to_vec(),
        size,
        presence,
        addresses: Addresses::Nowhere,
    };
    draft(&shape, Spacing::Nowhere, random).rendered(random)
}

fn few(random: &mut Random) -> Message {
    message(&[2, 1], Size::Any, Presence::Mixed, random)
}

fn compact(batches: &[usize], random: &mut Random) -> Message {
    let presence = random.pick(&[Presence::Absent, Presence::Mixed]);
    message(batches, Size::Least, presence, random)
}

/// So many transactions, as evenly as possible in so many batches.
fn shared(transactions: usize, batches: usize) -> Vec<usize> {
    let more = transactions % batches;
    let one_more = |batch| usize::from(batch < more);
    let counts = (0..batches).map(|batch| transactions / batches + one_more(batch));
    counts.collect()
}

fn longest_texts(random: &mut Random) -> Message {
    message(&[20; BATCH_LIMIT], Size::Most, Presence::Present, random)
}

/// The longest texts again, fewer, and every party with a full address.
fn longest_addresses(random: &mut Random) -> Message {
    let shape = Shape {
        batches: vec![12; BATCH_LIMIT],
        size: Size::Most,
        presence: Presence::Present,
        addresses: Addresses::Everywhere,
    };
    draft(&shape, Spacing::Nowhere, random).rendered(random)
}

/// A message of about half the greatest length, with line ends and margins.
fn spaced(random: &mut Random) -> Message {
    let shape = Shape {
        batches: shared(400, 20),
        size: Size::Any,
        presence: Presence::Mixed,
        addresses: Addresses::Anywhere,
    };
    draft(&shape, Spacing::Lines("\r\n"), random).rendered(random)
}

fn last_byte_lost(random: &mut Random) -> Message {
    let mut bytes = longest_texts(random);
    bytes.pop();
    bytes
}

/// A message of 2,000 transactions with a fault.
fn great(fault: fn(&mut Draft, &mut Random), random: &mut Random) -> Message {
    let shape = Shape {
        batches: shared(TRANSACTION_LIMIT, random.within(1..=BATCH_LIMIT)),
        size: Size::Least,
        presence: Presence::Mixed,
        addresses: Addresses::Nowhere,
    };
    let mut draft = draft(&shape, Spacing::Nowhere, random);
    fault(&mut draft, random);
    draft.rendered(random)
}

/// White space up to a length, in one of the places where it may stand.
fn filled_up(mut bytes: Message, length: usize, random: &mut Random) -> Message {
    let before = |tag: &str| {
        bytes
            .windows(tag.len())
            .position(|part| part == tag.as_bytes())
    };
    let tags = ["<GrpHdr>", "</PmtInf>", "</Document>"].map(before);
    let place = random.pick(&[tags[0], tags[1], tags[2], None]);
    let place = place.unwrap_or(bytes.len());
    let filler = vec![random.pick(WHITE_SPACE); length.saturating_sub(bytes.len())];
    bytes.splice(place..place, filler);
    bytes
}

type List = (Vec<u8>, u64);

pub const LISTS: &[fn(&mut Random) -> List] = &[
    |_| (Vec::new(), 1),
    |random| (lines(1, random).concat(), 1),
    |random| (lines(2, random).concat(), 1),
    |random| (lines(2, random).concat(), 0),
    |random| (lines(2, random).concat(), CEILING_LIMIT),
    |random| (lines(2, random).concat(), CEILING_LIMIT + 1),
    |random| (lines(2, random).concat(), (1 << 32) + 1),
    |random| (lines(2, random).concat(), u64::MAX),
    |random| (lines(1 + BATCH_LIMIT, random).concat(), 1),
    |random| (lines(2 + BATCH_LIMIT, random).concat(), 1),
    |random| (lines(1 + COLLECTION_LIMIT, random).concat(), 1),
    |random| (lines(1 + COLLECTION_LIMIT, random).concat(), CEILING_LIMIT),
    |random| (lines(2 + COLLECTION_LIMIT, random).concat(), CEILING_LIMIT),
    |random| (longest(random), CEILING_LIMIT),
    |random| (with_bad_line(COLLECTION_LIMIT, random), CEILING_LIMIT),
    |random| (with_bad_line(COLLECTION_LIMIT + 500, random), CEILING_LIMIT),
    |random| (of_length(MESSAGE_LIMIT, random), 1),
    |random| (of_length(MESSAGE_LIMIT + 1, random), 1),
    |random| (of_length(MESSAGE_LIMIT + 1, random), 0),
    |random| (of_length(3 * MESSAGE_LIMIT, random), 1),
];

/// A good list of so many lines, its collections of two terms.
fn lines(count: usize, random: &mut Random) -> Vec<Vec<u8>> {
    let terms = different_terms(2, random);
    let mut lines = list_draft::draft(count, &terms, Size::Least, random).lines();
    lines.truncate(count);
    lines
}

/// A list whose last line but a few is no frame.
fn with_bad_line(collections: usize, random: &mut Random) -> Vec<u8> {
    let mut lines = lines(1 + collections, random);
    let place = collections - random.below(3);
    lines[place].insert(0, b'0');
    lines.concat()
}

fn of_length(length: usize, random: &mut Random) -> Vec<u8> {
    let mut list = lines(3, random).concat();
    list.resize(length, b'0');
    list
}

/// The list whose message is the longest of all: 64 terms, three of them of 101 collections, the
/// others of 11 and the rest in one of them, every text as long as its rule allows.
pub fn longest(random: &mut Random) -> Vec<u8> {
    let date = |day: u8| format!("2026-11-{day:02}").into_bytes();
    let terms = (0..BATCH_LIMIT as u8).map(|index| (0, index % 4, date(1 + index / 4)));
    let terms: Vec<Terms> = terms.collect();
    let mut draft = list_draft::draft(COLLECTION_LIMIT, &terms, Size::Most, random);
    let counts = [vec![101; 3], vec![11 + 26], vec![11; 60]].concat();
    let of_each = terms.into_iter().zip(counts);
    draft.give_terms(of_each.flat_map(|(terms, count)| vec![terms; count]));
    draft.list()
}
