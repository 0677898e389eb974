//! Faults in the totals: wrong counts and sums, ones that cancel out, lost transactions.

use crate::draft::{is_holder, Draft};
use crate::random::Random;
use crate::samples::{spelled_cents, spelled_count};
use crate::tree::{Body, Node};

pub const TOTAL_FAULTS: &[fn(&mut Draft, &mut Random)] = &[
    wrong_batch_count,
    wrong_batch_count,
    wrong_batch_sum,
    wrong_batch_sum,
    wrong_header_count,
    wrong_header_count,
    wrong_header_sum,
    wrong_header_sum,
    cancelling_sums,
    cancelling_counts,
    lost_transaction,
    lost_transaction_of_a_batch,
    exchanged_totals,
];

/// Makes a batch declare a count or a sum: a declaration that was missing stands before
/// PmtTpInf, and a count before a sum.
fn make_declared(batch: &mut Node, name: &str, text: String) {
    if let Some(node) = batch.child_mut(name) {
        return node.set_text(text);
    }
    if let Some(children) = batch.children_mut() {
        let after = |node: &Node| ["CtrlSum", "PmtTpInf"].contains(&node.name.as_str());
        let place = children.iter().position(after).unwrap_or(0);
        children.insert(place, Node::new(name, Body::Text(text.into())));
    }
}

fn wrong_count(right: u64, random: &mut Random) -> String {
    let mut wrong = vec![
        right + 1,
        right.saturating_sub(1),
        0,
        10 * right,
        right + (1 << 8),
        right + (1 << 16),
        right + (1 << 32),
        999_999_999_999_999,
    ];
    wrong.retain(|&count| count != right);
    spelled_count(random.pick(&wrong), random)
}

fn wrong_sum(right: u64, random: &mut Random) -> String {
    let greatest = 99_999_999_999_999_999;
    let mut wrong = vec![
        right + 1,
        right.saturating_sub(1),
        right + 10,
        right + 100,
        right * 100,
        right / 100,
        right / 100 * 100,
        0,
        right + (1 << 32),
        right + (1 << 48),
        right + (1 << 56),
        greatest,
    ];
    wrong.retain(|&cents| cents != right);
    spelled_cents(random.pick(&wrong).min(greatest), 15, random)
}

/// A random batch of the draft, if one is left.
pub fn any_batch<'a>(draft: &'a mut Draft, random: &mut Random) -> Option<&'a mut Node> {
    let mut batches = draft.root.named_mut("PmtInf");
    batches.retain(|batch| is_holder(batch));
    (!batches.is_empty()).then(|| {
        let index = random.below(batches.len());
        batches.swap_remove(index)
    })
}

pub fn wrong_batch_count(draft: &mut Draft, random: &mut Random) {
    if let Some(batch) = any_batch(draft, random) {
        let text = wrong_count(batch.totals().0, random);
        make_declared(batch, "NbOfTxs", text);
    }
}

pub fn wrong_batch_sum(draft: &mut Draft, random: &mut Random) {
    if let Some(batch) = any_batch(draft, random) {
        let text = wrong_sum(batch.totals().1, random);
        make_declared(batch, "CtrlSum", text);
    }
}

fn set_header(draft: &mut Draft, name: &str, text: String) {
    for header in draft.root.named_mut("GrpHdr") {
        if let Some(node) = header.child_mut(name) {
            node.set_text(text.clone());
        }
    }
}

pub fn wrong_header_count(draft: &mut Draft, random: &mut Random) {
    let text = wrong_count(draft.root.totals().0, random);
    set_header(draft, "NbOfTxs", text);
}

pub fn wrong_header_sum(draft: &mut Draft, random: &mut Random) {
    let text = wrong_sum(draft.root.totals().1, random);
    set_header(draft, "CtrlSum", text);
}

/// Two batches' sums are wrong, and their total is right.
fn cancelling_sums(draft: &mut Draft, random: &mut Random) {
    let mut batches = draft.root.named_mut("PmtInf");
    if let [first, .., last] = &mut batches[..] {
        let (a, b) = (first.totals().1, last.totals().1);
        let shift = random.pick(&[1, 10, 100, b]).min(b);
        make_declared(first, "CtrlSum", spelled_cents(a + shift, 15, random));
        make_declared(last, "CtrlSum", spelled_cents(b - shift, 15, random));
    }
}

/// Two batches' counts are wrong, and their total is right.
fn cancelling_counts(draft: &mut Draft, random: &mut Random) {
    let mut batches = draft.root.named_mut("PmtInf");
    if let [first, .., last] = &mut batches[..] {
        let (a, b) = (first.totals().0, last.totals().0);
        let shift = b.min(1);
        make_declared(first, "NbOfTxs", spelled_count(a + shift, random));
        make_declared(last, "NbOfTxs", spelled_count(b - shift, random));
    }
}

/// A batch loses its last transaction and keeps its declarations.
fn lost_transaction(draft: &mut Draft, random: &mut Random) {
    if let Some(batch) = any_batch(draft, random) {
        if batch.totals().0 > 1 {
            batch.children_mut().map(|children| children.pop());
        }
    }
}

/// The header agrees with what is left.
fn lost_transaction_of_a_batch(draft: &mut Draft, random: &mut Random) {
    lost_transaction(draft, random);
    let totals = draft.root.totals();
    for header in draft.root.named_mut("GrpHdr") {
        header.declare_as(totals, random);
    }
}

/// Cents stand where the count is meant, or the count where cents are.
fn exchanged_totals(draft: &mut Draft, random: &mut Random) {
    let (count, cents) = draft.root.totals();
    match random.once_in(2) {
        true => set_header(draft, "NbOfTxs", cents.to_string()),
        false => set_header(draft, "CtrlSum", spelled_cents(count, 15, random)),
    }
}
