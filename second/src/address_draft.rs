//! Postal addresses for drafts: which parties have one, what it holds, and the collection dates
//! of their batches.

use crate::addresses::good_at;
use crate::profile::ADDRESS;
use crate::random::Random;
use crate::rules::{rule_of, Rule};
use crate::samples::{good, good_date, Size};
use crate::tree::{Body, Node};

/// Which parties have an address.
#[derive(Clone, Copy, PartialEq)]
pub enum Addresses {
    Nowhere,
    Anywhere,
    Everywhere,
}

/// The elements of an address, in order.
pub const ELEMENTS: [&str; 7] = [
    "StrtNm", "BldgNb", "PstCd", "TwnNm", "Ctry", "AdrLine", "AdrLine",
];

/// Dates up to the last one of unstructured addresses, and dates after it.
pub const EARLY: &[&str] = &[
    "2026-11-14",
    "2026-11-14",
    "2026-11-13",
    "2026-10-31",
    "2025-12-31",
    "2000-02-29",
    "1900-01-01",
];
pub const LATE: &[&str] = &[
    "2026-11-15",
    "2026-11-15",
    "2026-11-16",
    "2026-11-22",
    "2026-12-01",
    "2027-01-01",
    "2099-12-31",
];

/// Puts good addresses into a good message: with `Anywhere` each party has one or none, and most
/// dates are about the last one of unstructured addresses; with `Everywhere` each has one with all
/// that it may hold.
pub fn furnish(root: &mut Node, addresses: Addresses, size: Size, random: &mut Random) {
    if addresses == Addresses::Nowhere {
        return;
    }
    for batch in root.named_mut("PmtInf") {
        if addresses == Addresses::Anywhere {
            set_date(batch, any_date(random));
        }
        let date = date_of(batch);
        for party in parties(batch) {
            let elements = match addresses {
                Addresses::Everywhere => ELEMENTS.to_vec(),
                _ if random.once_in(2) => elements_where(true, &date, random),
                _ => continue,
            };
            let address = address(&elements, size, random);
            set_address(batch.descendant_mut(&party), address);
        }
    }
}

/// The paths from a batch to the parties that may have an address.
pub fn parties(batch: &Node) -> Vec<Vec<usize>> {
    batch.paths(&|node| ["Cdtr", "Dbtr"].contains(&node.name.as_str()))
}

fn any_date(random: &mut Random) -> Vec<u8> {
    match random.below(8) {
        0 => good_date(random),
        1..=4 => random.pick(EARLY).into(),
        _ => random.pick(LATE).into(),
    }
}

pub fn set_date(batch: &mut Node, date: impl Into<Vec<u8>>) {
    if let Some(node) = batch.child_mut("ReqdColltnDt") {
        node.set_text(date);
    }
}

/// The collection date of a batch; where it has none that is right, another.
pub fn date_of(batch: &Node) -> Vec<u8> {
    let dates = batch.children().iter().filter(|n| n.name == "ReqdColltnDt");
    let mut right = dates
        .filter_map(Node::text)
        .filter(|date| Rule::Date.allows(date));
    right.next().unwrap_or(b"2026-11-15").to_vec()
}

/// Any elements that are a good mix at a right date, or that are a bad one.
pub fn elements_where(right: bool, date: &[u8], random: &mut Random) -> Vec<&'static str> {
    loop {
        let elements = any_elements(random);
        if good_at(date, &elements) == right {
            return elements;
        }
    }
}

/// Elements of any mix, each mix as often as every other.
fn any_elements(random: &mut Random) -> Vec<&'static str> {
    let details = match random.once_in(2) {
        true => random.within(1..=7),
        false => 0,
    };
    let lines = random.pick(&[0, 0, 1, 2]);
    let there = |index: usize, random: &mut Random| match index {
        0..=2 => details >> index & 1 == 1,
        3..=4 => random.once_in(2),
        _ => index - 5 < lines,
    };
    let indices = (0..ELEMENTS.len()).filter(|&index| there(index, random));
    indices.map(|index| ELEMENTS[index]).collect()
}

/// An address of these elements, with good texts.
pub fn address(elements: &[&str], size: Size, random: &mut Random) -> Node {
    let texts = elements.iter().map(|name| {
        let rule = rule_of(&[ADDRESS, name]).expect("the profile has a rule for each of its texts");
        Node::new(name, Body::Text(good(rule, size, random)))
    });
    Node::new(ADDRESS, Body::Children(texts.collect()))
}

/// Gives a party this address and no other.
pub fn set_address(party: &mut Node, address: Node) {
    if let Some(children) = party.children_mut() {
        children.retain(|child| child.name != ADDRESS);
        children.push(address);
    }
}
