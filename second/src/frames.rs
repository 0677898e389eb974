//! Frames and lines of a day list, written from creditor and collections.

use crate::daylist::{Collection, Creditor};

pub fn list(creditor: &Creditor, collections: &[Collection]) -> Vec<u8> {
    let frames = frames(creditor, collections);
    frames.iter().flat_map(|frame| line(frame)).collect()
}

pub fn frames(creditor: &Creditor, collections: &[Collection]) -> Vec<Vec<u8>> {
    let first = [vec![1], framed(&creditor.texts)].concat();
    let further = collections.iter().map(collection_frame);
    [first].into_iter().chain(further).collect()
}

/// A frame in hexadecimal digits, ended by LF.
pub fn line(frame: &[u8]) -> Vec<u8> {
    let digits: String = frame.iter().map(|byte| format!("{byte:02X}")).collect();
    (digits + "\n").into_bytes()
}

fn collection_frame(collection: &Collection) -> Vec<u8> {
    let head = vec![2, collection.scheme, collection.sequence];
    let cents = collection.cents.to_be_bytes()[3..].to_vec();
    [head, cents, framed(&collection.texts)].concat()
}

fn framed(texts: &[Vec<u8>]) -> Vec<u8> {
    let with_lengths = texts
        .iter()
        .map(|text| [&[text.len() as u8], &text[..]].concat());
    with_lengths.flatten().collect()
}
