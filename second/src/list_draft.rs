//! A day list whose frames are not written yet, of good values only.

use crate::daylist::{Collection, Creditor, COLLECTION_RULES, CREDITOR_RULES};
use crate::frames::{self, line};
use crate::profile::CENTS_LIMIT;
use crate::random::Random;
use crate::rules::Rule;
use crate::samples::{good, good_cents, good_date, Size};

/// A list whose frames are not written yet.
pub struct Draft {
    pub creditor: Creditor,
    pub collections: Vec<Collection>,
}

impl Draft {
    pub fn frames(&self) -> Vec<Vec<u8>> {
        frames::frames(&self.creditor, &self.collections)
    }

    pub fn lines(&self) -> Vec<Vec<u8>> {
        self.frames().iter().map(|frame| line(frame)).collect()
    }

    pub fn list(&self) -> Vec<u8> {
        frames::list(&self.creditor, &self.collections)
    }

    /// Gives the collections these terms, one after the other.
    pub fn give_terms(&mut self, terms: impl Iterator<Item = Terms>) {
        for (collection, (scheme, sequence, date)) in self.collections.iter_mut().zip(terms) {
            (collection.scheme, collection.sequence) = (scheme, sequence);
            collection.texts[0] = date;
        }
    }
}

/// Scheme, sequence and collection date.
pub type Terms = (u8, u8, Vec<u8>);

pub fn draft(count: usize, terms: &[Terms], size: Size, random: &mut Random) -> Draft {
    let creditor = creditor(size, random);
    let mut collections: Vec<Collection> = Vec::new();
    for _ in 0..count {
        let terms = random.pick(terms);
        let next = match random.once_in(8) && !collections.is_empty() {
            true => random.pick(&collections),
            false => collection(&terms, size, random),
        };
        collections.push(next);
    }
    Draft {
        creditor,
        collections,
    }
}

pub fn any_draft(random: &mut Random) -> Draft {
    let terms = match random.once_in(3) {
        true => near_terms(random),
        false => {
            let count = random.within(1..=5);
            different_terms(count, random)
        }
    };
    let count = match random.below(20) {
        0 => random.within(10..=120),
        1 => 1,
        _ => random.within(1..=9),
    };
    let size = random.pick(&[Size::Any, Size::Any, Size::Any, Size::Least, Size::Most]);
    draft(count, &terms, size, random)
}

fn creditor(size: Size, random: &mut Random) -> Creditor {
    let texts = CREDITOR_RULES.map(|rule| good_text(rule, size, random));
    Creditor { texts }
}

fn collection((scheme, sequence, date): &Terms, size: Size, random: &mut Random) -> Collection {
    let mut texts = COLLECTION_RULES.map(|rule| good_text(rule, size, random));
    texts[0] = date.clone();
    let cents = match size {
        Size::Most => CENTS_LIMIT,
        _ => good_cents(random),
    };
    Collection {
        scheme: *scheme,
        sequence: *sequence,
        cents,
        texts,
    }
}

/// A good text; the longest bank is NOTPROVIDED, of length 0.
fn good_text((rule, may_be_empty): (Rule, bool), size: Size, random: &mut Random) -> Vec<u8> {
    let empty = match size {
        Size::Least => true,
        Size::Any => random.once_in(2),
        Size::Most => rule == Rule::Bic,
    };
    match may_be_empty && empty {
        true => Vec::new(),
        false => good(rule, size, random),
    }
}

/// So many different terms.
pub fn different_terms(count: usize, random: &mut Random) -> Vec<Terms> {
    let mut terms: Vec<Terms> = Vec::new();
    while terms.len() < count {
        let more = (
            random.below(2) as u8,
            random.below(4) as u8,
            good_date(random),
        );
        if !terms.contains(&more) {
            terms.push(more);
        }
    }
    terms
}

/// Terms that differ in as little as possible: in the scheme, in the sequence or in the date.
fn near_terms(random: &mut Random) -> Vec<Terms> {
    let date = good_date(random);
    vec![
        (0, 1, date.clone()),
        (1, 1, date.clone()),
        (0, 2, date),
        (0, 1, b"2026-11-10".to_vec()),
        (0, 1, b"2026-11-11".to_vec()),
    ]
}
