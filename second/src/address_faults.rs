//! Faults of postal addresses: bad mixes and dates, elements too many, elsewhere, in another order
//! or spelled otherwise, bad texts. Each is a fault of some party of the draft, with an address of
//! its own.

use crate::address_draft::{
    address, date_of, elements_where, parties, set_address, set_date, EARLY, ELEMENTS, LATE,
};
use crate::draft::{any_path, Draft};
use crate::edges::edges;
use crate::profile::ADDRESS;
use crate::random::Random;
use crate::rules::rule_of;
use crate::samples::Size;
use crate::total_faults::any_batch;
use crate::tree::{Body, Node};

pub const ADDRESS_FAULTS: &[fn(&mut Draft, &mut Random)] = &[
    bad_mix,
    bad_mix,
    bad_mix,
    bad_mix,
    two_bad_mixes,
    unstructured_in_time,
    unstructured_too_late,
    empty,
    third_line,
    two_exchanged,
    before_the_name,
    two_addresses,
    elsewhere,
    other_element,
    other_name,
    bad_text_inside,
    text_inside,
];

/// A random party of a batch.
fn any_party<'a>(batch: &'a mut Node, random: &mut Random) -> Option<&'a mut Node> {
    let parties = parties(batch);
    (!parties.is_empty()).then(|| batch.descendant_mut(&random.pick(&parties)))
}

/// Gives a random party an address, made by the date of its batch.
fn with_address(draft: &mut Draft, random: &mut Random, make: impl Fn(&[u8], &mut Random) -> Node) {
    if let Some(batch) = any_batch(draft, random) {
        let address = make(&date_of(batch), random);
        if let Some(party) = any_party(batch, random) {
            set_address(party, address);
        }
    }
}

/// An address with all that it may hold.
fn full(random: &mut Random) -> Node {
    address(&ELEMENTS, Size::Any, random)
}

pub fn bad_mix(draft: &mut Draft, random: &mut Random) {
    with_address(draft, random, |date, random| {
        address(&elements_where(false, date, random), Size::Any, random)
    });
}

fn two_bad_mixes(draft: &mut Draft, random: &mut Random) {
    bad_mix(draft, random);
    bad_mix(draft, random);
}

/// An unstructured address in a batch of one of these dates.
fn unstructured(dates: &[&str], draft: &mut Draft, random: &mut Random) {
    let elements = random.pick(&[
        &ELEMENTS[4..5],
        &ELEMENTS[4..6],
        &ELEMENTS[4..],
        &ELEMENTS[5..],
    ]);
    if let Some(batch) = any_batch(draft, random) {
        set_date(batch, random.pick(dates));
        if let Some(party) = any_party(batch, random) {
            set_address(party, address(elements, Size::Any, random));
        }
    }
}

/// No fault, but next to one.
fn unstructured_in_time(draft: &mut Draft, random: &mut Random) {
    unstructured(EARLY, draft, random);
}

fn unstructured_too_late(draft: &mut Draft, random: &mut Random) {
    unstructured(LATE, draft, random);
}

fn empty(draft: &mut Draft, random: &mut Random) {
    let inside = random.pick(&["", "", " ", "\r\n\t"]);
    with_address(draft, random, |_, _| {
        Node::new(ADDRESS, Body::Children(vec![Node::raw(inside)]))
    });
}

fn third_line(draft: &mut Draft, random: &mut Random) {
    with_address(draft, random, |_, random| {
        let first = random.pick(&[0, 3, 5]);
        let elements = [&ELEMENTS[first..], &["AdrLine"]].concat();
        address(&elements, Size::Any, random)
    });
}

fn two_exchanged(draft: &mut Draft, random: &mut Random) {
    with_address(draft, random, |_, random| {
        let mut elements = ELEMENTS;
        elements.swap(random.below(6), random.below(6));
        let first = random.below(4);
        address(&elements[first..], Size::Any, random)
    });
}

fn before_the_name(draft: &mut Draft, random: &mut Random) {
    with_party(draft, random, |children, address| {
        children.insert(0, address)
    });
}

fn two_addresses(draft: &mut Draft, random: &mut Random) {
    with_party(draft, random, |children, address| {
        children.extend([address.clone(), address]);
    });
}

/// Changes the elements of a random party, with an address to put there.
fn with_party(draft: &mut Draft, random: &mut Random, change: impl Fn(&mut Vec<Node>, Node)) {
    let address = full(random);
    if let Some(batch) = any_batch(draft, random) {
        let party = any_party(batch, random);
        if let Some(children) = party.and_then(Node::children_mut) {
            children.retain(|child| child.name != ADDRESS);
            change(children, address);
        }
    }
}

/// An address in an element that has none.
fn elsewhere(draft: &mut Draft, random: &mut Random) {
    let holders = [
        "InitgPty",
        "InitgPty",
        "GrpHdr",
        "PmtInf",
        "CdtrAcct",
        "FinInstnId",
        "DrctDbtTxInf",
        "DbtrAcct",
    ];
    let holder = random.pick(&holders);
    let address = full(random);
    if let Some(path) = any_path(draft, &|node| node.name == holder, random) {
        if let Some(children) = draft.root.descendant_mut(&path).children_mut() {
            let place = random.pick(&[0, children.len(), children.len()]);
            children.insert(place, address);
        }
    }
}

/// An element of the standard's address, or of none, beside those of the profile.
fn other_element(draft: &mut Draft, random: &mut Random) {
    let names = [
        "AdrTp",
        "Dept",
        "SubDept",
        "BldgNm",
        "Flr",
        "PstBx",
        "Room",
        "TwnLctnNm",
        "DstrctNm",
        "CtrySubDvsn",
        "Nm",
        "PstlAdr",
        "CtryOfRes",
    ];
    with_address(draft, random, |_, random| {
        let mut address = full(random);
        let other = Node::new(random.pick(&names), Body::Text(b"1".to_vec()));
        if let Some(children) = address.children_mut() {
            let place = random.within(0..=children.len());
            children.insert(place, other);
        }
        address
    });
}

/// The address or one of its elements has a name that is nearly its own.
fn other_name(draft: &mut Draft, random: &mut Random) {
    let names = [
        "PstIAdr", "Pst1Adr", "PstlAdrs", "PstAdr", "StrtNM", "StrtName", "BldgNo", "BldgNm",
        "PstlCd", "PstCode", "TwnName", "Twn", "Ctr", "Cntry", "Ctrys", "AdrLn", "AdrLines",
    ];
    with_address(draft, random, |_, random| {
        let mut address = full(random);
        let name = random.pick(&names).to_string();
        match random.below(8) {
            7 => address.name = name,
            index => address.descendant_mut(&[index]).name = name,
        }
        address
    });
}

/// A text of an address breaks its rule; the mix may be a bad one too.
fn bad_text_inside(draft: &mut Draft, random: &mut Random) {
    with_address(draft, random, |date, random| {
        let mix = random.once_in(2);
        let mut elements = elements_where(mix, date, random);
        if elements.is_empty() {
            elements.push("Ctry");
        }
        let mut address = address(&elements, Size::Any, random);
        let index = random.below(elements.len());
        if let Some(rule) = rule_of(&[ADDRESS, elements[index]]) {
            let mut texts = edges(rule, random);
            texts.retain(|text| !rule.allows(text));
            address
                .descendant_mut(&[index])
                .set_text(random.pick(&texts));
        }
        address
    });
}

/// Text where the elements of an address are due.
fn text_inside(draft: &mut Draft, random: &mut Random) {
    let text = random.pick(&["x", "1 Main Street", "\0", "&#10;", "\u{a0}", ">", "</"]);
    with_address(draft, random, |_, random| {
        let mut address = full(random);
        if let Some(children) = address.children_mut() {
            let place = random.within(0..=children.len());
            children.insert(place, Node::raw(text));
        }
        address
    });
}
