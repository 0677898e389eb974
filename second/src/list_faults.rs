//! Faults in a day list: in its values, in its frames, in its digits and lines.

use crate::daylist::{Collection, COLLECTION_RULES, CREDITOR_RULES};
use crate::edges::edges;
use crate::list_draft::Draft;
use crate::profile::CENTS_LIMIT;
use crate::random::Random;
use crate::rules::Rule;

type ValueFault = fn(&mut Draft, &mut Random);
type FrameFault = fn(&mut Vec<u8>, &mut Random);
type LineFault = fn(&mut Vec<Vec<u8>>, &mut Random);

pub const VALUE_FAULTS: &[ValueFault] = &[
    some_edge,
    some_edge,
    empty_text,
    less_than,
    edge_cents,
    edge_scheme,
    edge_sequence,
];

pub const FRAME_FAULTS: &[FrameFault] = &[
    other_kind,
    byte_more,
    byte_less,
    byte_changed,
    length_changed,
    cut_short,
];

pub const LINE_FAULTS: &[LineFault] = &[
    lower_case,
    odd_digits,
    odd_digits,
    other_digit,
    carriage_return,
    last_line_feed_missing,
    line_feed_missing,
    empty_line,
    lines_swapped,
    creditor_again,
    creditor_missing,
    text_after_the_end,
    lines_cut,
];

/// Any text of the list with its rule.
fn any_text<'a>(draft: &'a mut Draft, random: &mut Random) -> (&'a mut Vec<u8>, Rule) {
    if random.once_in(3) {
        let field = random.below(CREDITOR_RULES.len());
        return (&mut draft.creditor.texts[field], CREDITOR_RULES[field].0);
    }
    let field = random.below(COLLECTION_RULES.len());
    let text = &mut any_collection(draft, random).texts[field];
    (text, COLLECTION_RULES[field].0)
}

pub fn any_collection<'a>(draft: &'a mut Draft, random: &mut Random) -> &'a mut Collection {
    let index = random.below(draft.collections.len());
    &mut draft.collections[index]
}

fn some_edge(draft: &mut Draft, random: &mut Random) {
    let (text, rule) = any_text(draft, random);
    let edges = edges(rule, random);
    *text = random.pick(&edges);
    text.truncate(255);
}

/// Two fields break their rules, of one line or of any two.
pub fn two_bad_fields(draft: &mut Draft, random: &mut Random) {
    let lines = 1 + draft.collections.len();
    let line = random.below(lines);
    let other = match random.once_in(2) {
        true => line,
        false => random.below(lines),
    };
    bad_field(draft, line, random);
    bad_field(draft, other, random);
}

/// Some field of a line, counted from 0, breaks its rule.
fn bad_field(draft: &mut Draft, line: usize, random: &mut Random) {
    if line == 0 {
        let field = random.below(CREDITOR_RULES.len());
        draft.creditor.texts[field] = bad_text(CREDITOR_RULES[field], random);
        return;
    }
    let collection = &mut draft.collections[line - 1];
    match random.below(3 + COLLECTION_RULES.len()) {
        0 => collection.scheme = random.pick(&[2, 3, 255]),
        1 => collection.sequence = random.pick(&[4, 5, 255]),
        2 => collection.cents = random.pick(&[0, CENTS_LIMIT + 1, (1 << 40) - 1]),
        field => collection.texts[field - 3] = bad_text(COLLECTION_RULES[field - 3], random),
    }
}

fn bad_text((rule, may_be_empty): (Rule, bool), random: &mut Random) -> Vec<u8> {
    let mut edges = edges(rule, random);
    edges.retain(|text| !rule.allows(text) && !(may_be_empty && text.is_empty()));
    let mut text = random.pick(&edges);
    text.truncate(255);
    text
}

fn empty_text(draft: &mut Draft, random: &mut Random) {
    any_text(draft, random).0.clear();
}

/// A byte that no text of a message can have.
fn less_than(draft: &mut Draft, random: &mut Random) {
    let (text, _) = any_text(draft, random);
    let place = random.within(0..=text.len());
    text.insert(place, b'<');
}

fn edge_cents(draft: &mut Draft, random: &mut Random) {
    let edges = [
        0,
        0,
        1,
        CENTS_LIMIT,
        CENTS_LIMIT + 1,
        CENTS_LIMIT + 1,
        1 << 32,
        1 << 36,
        1 << 37,
        (1 << 40) - 1,
    ];
    any_collection(draft, random).cents = random.pick(&edges);
}

fn edge_scheme(draft: &mut Draft, random: &mut Random) {
    any_collection(draft, random).scheme = random.pick(&[0, 1, 2, 2, 3, 255]);
}

fn edge_sequence(draft: &mut Draft, random: &mut Random) {
    any_collection(draft, random).sequence = random.pick(&[0, 3, 4, 4, 5, 255]);
}

fn other_kind(frame: &mut Vec<u8>, random: &mut Random) {
    frame[0] = random.pick(&[0, 1, 2, 3, 255]);
}

fn byte_more(frame: &mut Vec<u8>, random: &mut Random) {
    let place = random.pick(&[frame.len(), frame.len(), frame.len() / 2]);
    frame.insert(place, random.pick(&[0, 1, b'A', 255]));
}

fn byte_less(frame: &mut Vec<u8>, random: &mut Random) {
    let place = random.pick(&[frame.len() - 1, frame.len() - 1, frame.len() / 2, 0]);
    frame.remove(place);
}

fn byte_changed(frame: &mut Vec<u8>, random: &mut Random) {
    let place = random.below(frame.len());
    frame[place] = random.byte();
}

/// The length of some text, a byte that is followed by as many, is one off.
fn length_changed(frame: &mut Vec<u8>, random: &mut Random) {
    let first = if frame[0] == 1 { 1 } else { 8 };
    let mut place = first;
    for _ in 0..random.below(7) {
        place += 1 + usize::from(frame[place]);
    }
    frame[place] = match random.below(3) {
        0 => frame[place].wrapping_add(1),
        1 => frame[place].wrapping_sub(1),
        _ => random.pick(&[0, 255]),
    };
}

fn cut_short(frame: &mut Vec<u8>, random: &mut Random) {
    frame.truncate(random.below(frame.len()));
}

fn any_line<'a>(lines: &'a mut [Vec<u8>], random: &mut Random) -> &'a mut Vec<u8> {
    let index = random.below(lines.len());
    &mut lines[index]
}

fn lower_case(lines: &mut Vec<Vec<u8>>, random: &mut Random) {
    match random.once_in(2) {
        true => any_line(lines, random).make_ascii_lowercase(),
        false => {
            let line = any_line(lines, random);
            let place = random.below(line.len());
            line[place].make_ascii_lowercase();
        }
    }
}

fn odd_digits(lines: &mut Vec<Vec<u8>>, random: &mut Random) {
    let line = any_line(lines, random);
    let place = random.below(line.len());
    match random.once_in(2) {
        true => line.insert(place, b'0'),
        false => _ = line.remove(place),
    }
}

fn other_digit(lines: &mut Vec<Vec<u8>>, random: &mut Random) {
    let line = any_line(lines, random);
    let place = random.below(line.len());
    line[place] = random.pick(b"G/:@g` \t\0x\xff");
}

fn carriage_return(lines: &mut Vec<Vec<u8>>, random: &mut Random) {
    match random.once_in(2) {
        true => lines.iter_mut().for_each(end_with_carriage_return),
        false => end_with_carriage_return(any_line(lines, random)),
    }
}

fn end_with_carriage_return(line: &mut Vec<u8>) {
    line.insert(line.len() - 1, b'\r');
}

fn last_line_feed_missing(lines: &mut Vec<Vec<u8>>, _: &mut Random) {
    lines.last_mut().map(|line| line.pop());
}

/// Two lines become one, or the last lacks LF.
fn line_feed_missing(lines: &mut Vec<Vec<u8>>, random: &mut Random) {
    any_line(lines, random).pop();
}

fn empty_line(lines: &mut Vec<Vec<u8>>, random: &mut Random) {
    let place = random.pick(&[0, lines.len() / 2, lines.len()]);
    lines.insert(place, b"\n".to_vec());
}

fn lines_swapped(lines: &mut Vec<Vec<u8>>, random: &mut Random) {
    let other = random.below(lines.len());
    lines.swap(0, other);
}

fn creditor_again(lines: &mut Vec<Vec<u8>>, random: &mut Random) {
    let place = random.within(0..=lines.len());
    lines.insert(place, lines[0].clone());
}

fn creditor_missing(lines: &mut Vec<Vec<u8>>, _: &mut Random) {
    lines.remove(0);
}

fn text_after_the_end(lines: &mut Vec<Vec<u8>>, random: &mut Random) {
    let ends: [&[u8]; 6] = [b"0", b"00", b" ", b"\x1a", b"\0\n", b"end\n"];
    lines.push(random.pick(&ends).to_vec());
}

fn lines_cut(lines: &mut Vec<Vec<u8>>, random: &mut Random) {
    let place = random.below(lines.len());
    lines.truncate(place + 1);
    let length = random.within(0..=lines[place].len());
    lines[place].truncate(length);
}
