//! Each of the 256 bytes in a name, in an identifier and in a remittance, of a message and of a
//! list. Which of them are letters says a table of the letter set in the order of the bytes.

use crate::text_cases::TextCase;
use crate::vectors::{list_with_text, with_bytes};

/// The bytes from 0 to 127, sixteen to a line: one of the letter set as itself, any other as `_`,
/// which is not of the set.
const BYTES: &str = concat!(
    "________________",
    "________________",
    " ______'()_+,-./",
    "0123456789:____?",
    "_ABCDEFGHIJKLMNO",
    "PQRSTUVWXYZ_____",
    "_abcdefghijklmno",
    "pqrstuvwxyz_____",
);

/// The number of a text of letters and this byte, where 0 is none.
fn number(byte: u8) -> u32 {
    let mark = BYTES.as_bytes().get(usize::from(byte));
    match mark == Some(&byte) && byte != b'_' {
        true => 0,
        false => 52,
    }
}

/// What the text stands for in the vectors: a text of the message, and a field of the list's
/// second line.
type Stead = (&'static str, usize);
const NAME: Stead = ("Mr Debiteur N1", 9);
const ID: Stead = ("FEE 1", 5);
const REMITTANCE: Stead = ("Facture N1", 11);

/// Texts with the byte, each with what it stands for: in the first sixteen, in the first sixty-four
/// and behind them, so that a test of many bytes at once is tried and so is that of the rest; and in
/// an identifier without a slash and with one.
fn texts(byte: u8) -> [(Stead, Vec<u8>); 7] {
    let among = |length: usize, place: usize| {
        let mut text = vec![b'a'; length];
        text[place] = byte;
        text
    };
    let turn = usize::from(byte);
    [
        (NAME, among(1, 0)),
        (NAME, among(20, turn % 16)),
        (NAME, among(70, turn % 64)),
        (NAME, among(70, 69)),
        (ID, vec![b'A', byte, b'B']),
        (ID, vec![b'A', b'/', b'B', byte, b'C']),
        (REMITTANCE, among(140, turn % 128)),
    ]
}

fn named(byte: u8, text: &[u8]) -> String {
    format!("byte {byte} in a text of {}", text.len())
}

/// The messages. A `<` ends the text, and what follows it is no closing tag.
pub fn messages() -> Vec<TextCase> {
    let mut cases = Vec::new();
    for byte in 0..=255 {
        cases.extend(texts(byte).map(|((old, _), text)| {
            let (message, place) = with_bytes(old, &text);
            let (number, place) = match text.iter().position(|&byte| byte == b'<') {
                Some(end) => (2, place + end + 1),
                None => (number(byte), place),
            };
            TextCase::of_a_message(&named(byte, &text), message, number, place)
        }));
    }
    cases
}

/// The lists.
pub fn lists() -> Vec<TextCase> {
    let mut cases = Vec::new();
    for byte in 0..=255 {
        cases.extend(texts(byte).map(|((_, field), text)| {
            let list = list_with_text(2, field, &text);
            TextCase::of_a_list(&named(byte, &text), list, number(byte), (2, field))
        }));
    }
    cases
}
