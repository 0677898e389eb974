//! Messages for comparison: good ones of every shape, and ones with faults in the tree, in the
//! texts, in the addresses, in the totals and in the bytes. Text edges and tree faults are taken in
//! turn, so that a long enough row of cases has them all.

use crate::address_draft::Addresses;
use crate::address_faults::{bad_mix, ADDRESS_FAULTS};
use crate::byte_faults::BYTE_FAULTS;
use crate::draft::{
    any_addresses, any_presence, any_spacing, draft, good_draft, nodes_of, simple, texts_of,
    with_addresses, Draft,
};
use crate::edges::edge_in_turn;
use crate::other_faults::{bad_text, some_tree_fault, OTHER_FAULTS};
use crate::profile::{
    closing, opening, paths, ADDRESS, BATCH_LIMIT, MESSAGE_LIMIT, TRANSACTION_LIMIT, WHITE_SPACE,
};
use crate::random::{turn, Random};
use crate::rules::{rules_of_the_profile, Rule};
use crate::samples::Size;
use crate::total_faults::{
    wrong_batch_count, wrong_batch_sum, wrong_header_count, wrong_header_sum, TOTAL_FAULTS,
};
use crate::tree::{Presence, Shape, Spacing};
use crate::tree_faults::{apply, TREE_FAULTS};

type DraftFault = fn(&mut Draft, &mut Random);

/// A fault for each stage that a tree of a few batches can fail.
const STAGE_FAULTS: &[DraftFault] = &[
    some_tree_fault,
    bad_text,
    bad_mix,
    wrong_batch_count,
    wrong_batch_sum,
    wrong_header_count,
    wrong_header_sum,
];

/// What edges and tree faults are about: what stands in addresses, or all else.
#[derive(Clone, Copy, PartialEq)]
enum About {
    Addresses,
    AllElse,
}

impl About {
    fn draft(self, random: &mut Random) -> Draft {
        match self {
            About::Addresses => with_addresses(random),
            About::AllElse => simple(random),
        }
    }

    fn rules(self) -> Vec<Rule> {
        let mut rules = rules_of_the_profile();
        rules.retain(|rule| rule.is_of_addresses() == (self == About::Addresses));
        rules
    }

    /// The elements of the tree, but for its root.
    fn elements(self) -> Vec<Vec<String>> {
        let mut elements = paths().split_off(1);
        let in_address = |path: &[String]| path.iter().any(|name| name == ADDRESS);
        elements.retain(|path| in_address(path) == (self == About::Addresses));
        elements
    }
}

/// The message of a case, of at most so many bytes.
pub fn message(seed: u64, case: u64, most: usize) -> Vec<u8> {
    let random = &mut Random::new(seed, case);
    for _ in 0..4 {
        let message = any_message(seed, case, most, random);
        if message.len() <= most {
            return message;
        }
    }
    let mut message = simple(random).rendered(random);
    message.truncate(most);
    message
}

/// Thirty-six cases are a round: 14 of them have a text edge, eight a tree fault, two a pair of
/// faults, in turn. The last six have addresses: two have an edge of a text in them, two a tree
/// fault in them, two a fault of their own, in turn.
fn any_message(seed: u64, case: u64, most: usize, random: &mut Random) -> Vec<u8> {
    if most > MESSAGE_LIMIT && random.once_in(12) {
        return about_the_limit(random);
    }
    if most >= 700_000 && random.once_in(10) {
        return many_transactions(random);
    }
    let (round, place) = (case / 36, case % 36);
    match place {
        0..=13 => with_edge_in_turn(About::AllElse, turn(seed, 14 * round + place), random),
        14..=21 => {
            let turn = turn(seed, 8 * round + place - 14);
            with_tree_fault_in_turn(About::AllElse, turn, random)
        }
        22..=23 => with_draft_fault(TOTAL_FAULTS, random),
        24 => with_draft_fault(OTHER_FAULTS, random),
        25 => with_byte_fault(random),
        26..=27 => with_two_faults_in_turn(turn(seed, 2 * round + place - 26), random),
        28 => good_message(most, random),
        29 => of_unusual_length(most, random),
        30..=31 => {
            let turn = turn(seed, 2 * round + place - 30);
            with_edge_in_turn(About::Addresses, turn, random)
        }
        32..=33 => {
            let turn = turn(seed, 2 * round + place - 32);
            with_tree_fault_in_turn(About::Addresses, turn, random)
        }
        _ => with_address_fault_in_turn(turn(seed, 2 * round + place - 34), random),
    }
}

/// A message that is accepted.
pub fn good_message(most: usize, random: &mut Random) -> Vec<u8> {
    good_draft(most, random).rendered(random)
}

fn of_unusual_length(most: usize, random: &mut Random) -> Vec<u8> {
    match random.below(10) {
        0..=3 => many_batches(random),
        4..=6 => tiny(random),
        7 => noise(random),
        8 => large(most, random),
        _ => filled_up(most, random),
    }
}

fn with_draft_fault(faults: &[DraftFault], random: &mut Random) -> Vec<u8> {
    let mut draft = simple(random);
    random.pick(faults)(&mut draft, random);
    draft.rendered(random)
}

fn with_byte_fault(random: &mut Random) -> Vec<u8> {
    let mut bytes = simple(random).rendered(random);
    random.pick(BYTE_FAULTS)(&mut bytes, random);
    bytes
}

/// Two faults, every pair of stages in turn, in a message of several batches.
fn with_two_faults_in_turn(turn: usize, random: &mut Random) -> Vec<u8> {
    let batches = random.within(2..=4);
    let shape = Shape {
        batches: (0..batches).map(|_| random.within(1..=2)).collect(),
        size: Size::Any,
        presence: any_presence(random),
        addresses: any_addresses(random),
    };
    let spacing = any_spacing(random);
    let mut draft = draft(&shape, spacing, random);
    let stages = STAGE_FAULTS.len();
    STAGE_FAULTS[turn % stages](&mut draft, random);
    STAGE_FAULTS[turn / stages % stages](&mut draft, random);
    draft.rendered(random)
}

/// Every edge in turn, at some text of its rule.
fn with_edge_in_turn(about: About, turn: usize, random: &mut Random) -> Vec<u8> {
    let (rule, text) = edge_in_turn(&about.rules(), turn, random);
    let mut draft = about.draft(random);
    while texts_of(&draft, rule).is_empty() {
        draft = about.draft(random);
    }
    let path = random.pick(&texts_of(&draft, rule));
    draft.root.descendant_mut(&path).set_text(text);
    if rule == Rule::Amount {
        draft.root.declare(random);
    }
    draft.rendered(random)
}

/// Every fault in turn at every element of the tree.
fn with_tree_fault_in_turn(about: About, turn: usize, random: &mut Random) -> Vec<u8> {
    let fault = TREE_FAULTS[turn % TREE_FAULTS.len()];
    let elements = about.elements();
    let element = &elements[turn / TREE_FAULTS.len() % elements.len()];
    let mut draft = about.draft(random);
    while nodes_of(&draft, element).is_empty() {
        draft = about.draft(random);
    }
    let path = random.pick(&nodes_of(&draft, element));
    apply(fault, &mut draft, &path, random);
    draft.rendered(random)
}

/// Every fault of addresses in turn, and a message that ends inside one.
fn with_address_fault_in_turn(turn: usize, random: &mut Random) -> Vec<u8> {
    let mut draft = with_addresses(random);
    match ADDRESS_FAULTS.get(turn % (ADDRESS_FAULTS.len() + 1)) {
        Some(fault) => fault(&mut draft, random),
        None => return cut_in_an_address(draft.rendered(random), random),
    }
    draft.rendered(random)
}

fn cut_in_an_address(mut bytes: Vec<u8>, random: &mut Random) -> Vec<u8> {
    let places = |tag: String| -> Vec<usize> {
        let windows = bytes.windows(tag.len()).enumerate();
        let found = windows.filter(|(_, window)| *window == tag.as_bytes());
        found.map(|(place, _)| place).collect()
    };
    let (starts, ends) = (places(opening(ADDRESS)), places(closing(ADDRESS)));
    let index = random.below(starts.len());
    let most = ends[index] + closing(ADDRESS).len();
    bytes.truncate(random.within(starts[index]..=most));
    bytes
}

/// About 64 batches, mostly with a fault of another stage.
fn many_batches(random: &mut Random) -> Vec<u8> {
    let about = BATCH_LIMIT + random.below(4) - 1;
    let limit = BATCH_LIMIT + random.below(2);
    let shape = Shape {
        batches: vec![1; random.pick(&[limit, limit, about])],
        size: Size::Least,
        presence: any_presence(random),
        addresses: Addresses::Nowhere,
    };
    crowded(&shape, random)
}

/// About 2,000 transactions, mostly with a fault of another stage.
fn many_transactions(random: &mut Random) -> Vec<u8> {
    let transactions = TRANSACTION_LIMIT + random.pick(&[0, 0, 1, 1, 2, 9]);
    let batches = random.pick(&[1, 2, 7, BATCH_LIMIT, BATCH_LIMIT + 1]);
    let mut counts = vec![transactions / batches; batches];
    counts[random.below(batches)] += transactions % batches;
    let shape = Shape {
        batches: counts,
        size: Size::Least,
        presence: random.pick(&[Presence::Absent, Presence::Absent, Presence::Present]),
        addresses: Addresses::Nowhere,
    };
    crowded(&shape, random)
}

fn crowded(shape: &Shape, random: &mut Random) -> Vec<u8> {
    let mut draft = draft(shape, Spacing::Nowhere, random);
    match random.below(6) {
        0..=1 => {}
        2..=3 => bad_text(&mut draft, random),
        _ => random.pick(STAGE_FAULTS)(&mut draft, random),
    }
    draft.rendered(random)
}

/// A message, or anything, of about 1,048,576 bytes.
fn about_the_limit(random: &mut Random) -> Vec<u8> {
    let length = MESSAGE_LIMIT + random.pick(&[0, 1, 1, 2]);
    let mut bytes = match random.once_in(3) {
        true => Vec::new(),
        false => simple(random).rendered(random),
    };
    let filler = random.pick(b" \nx<");
    bytes.resize(length, filler);
    bytes
}

/// A message that nearly fills the room, compact and with many transactions.
fn large(most: usize, random: &mut Random) -> Vec<u8> {
    let transactions = (most / random.pick(&[800, 1_000])).clamp(1, 150);
    let shape = Shape {
        batches: vec![transactions],
        size: Size::Any,
        presence: any_presence(random),
        addresses: any_addresses(random),
    };
    draft(&shape, Spacing::Nowhere, random).rendered(random)
}

/// A good message filled up with white space to exactly the greatest length, or nearly.
fn filled_up(most: usize, random: &mut Random) -> Vec<u8> {
    let mut draft = simple(random);
    let length = draft.rendered(random).len();
    let room = most.min(70_000).saturating_sub(length + random.below(3));
    let filler = random.bytes(WHITE_SPACE, room);
    match random.once_in(2) {
        true => draft.start.extend(filler),
        false => draft.end = filler,
    }
    draft.rendered(random)
}

fn tiny(random: &mut Random) -> Vec<u8> {
    let starts = [
        "",
        "<",
        "<?",
        "<?x",
        "<D",
        "x",
        " ",
        " \n\t\r",
        " <?xml",
        "\u{feff}<",
        "<!",
        "</",
        "<>",
        "\0",
        "<document",
        "<?xml version=\"1.0\" encoding=\"UTF-8\" ?>",
    ];
    if random.once_in(2) {
        return random.pick(&starts).into();
    }
    let mut bytes = simple(random).rendered(random);
    bytes.truncate(random.below(200));
    bytes
}

/// Tags of a message in any order, or any bytes.
fn noise(random: &mut Random) -> Vec<u8> {
    if random.once_in(2) {
        let length = random.below(300);
        return (0..length).map(|_| random.byte()).collect();
    }
    let bytes = simple(random).rendered(random);
    let tags: Vec<&[u8]> = bytes.split_inclusive(|&byte| byte == b'>').collect();
    let count = random.below(60);
    let keep = random.below(tags.len());
    let kept = tags[..keep].concat();
    let more: Vec<&[u8]> = (0..count).map(|_| random.pick(&tags)).collect();
    [kept, more.concat()].concat()
}
