//! Faults in the bytes of a message: cut, changed, inserted, deleted, doubled, swapped.

use crate::random::Random;
use std::ops::Range;

pub const BYTE_FAULTS: &[fn(&mut Vec<u8>, &mut Random)] = &[
    cut,
    byte_changed,
    byte_changed,
    byte_inserted,
    byte_deleted,
    stretch_deleted,
    stretch_doubled,
    bytes_swapped,
];

/// A place in the bytes, often beside a tag's edge.
fn any_place(bytes: &[u8], random: &mut Random) -> usize {
    let place = random.below(bytes.len().max(1));
    if random.once_in(2) {
        return place;
    }
    let rest = &bytes[place.min(bytes.len())..];
    let edge = rest.iter().position(|byte| b"<>/".contains(byte));
    place + edge.unwrap_or(0) + random.below(2)
}

fn any_byte(random: &mut Random) -> u8 {
    match random.once_in(3) {
        true => random.byte(),
        false => random.pick(b"<<<>>>//  \t\n\r\0?!&;=\"'aZ09xNbd\x80\xff"),
    }
}

fn cut(bytes: &mut Vec<u8>, random: &mut Random) {
    bytes.truncate(any_place(bytes, random));
}

fn byte_changed(bytes: &mut Vec<u8>, random: &mut Random) {
    let place = any_place(bytes, random);
    if let Some(byte) = bytes.get_mut(place) {
        *byte = match random.below(4) {
            0 => *byte ^ 0x20,
            1 => byte.wrapping_add(1),
            _ => any_byte(random),
        };
    }
}

fn byte_inserted(bytes: &mut Vec<u8>, random: &mut Random) {
    let place = any_place(bytes, random).min(bytes.len());
    bytes.insert(place, any_byte(random));
}

fn byte_deleted(bytes: &mut Vec<u8>, random: &mut Random) {
    let place = any_place(bytes, random);
    if place < bytes.len() {
        bytes.remove(place);
    }
}

fn any_stretch(bytes: &[u8], random: &mut Random) -> Range<usize> {
    let start = any_place(bytes, random).min(bytes.len());
    let most = random.pick(&[2, 8, 60, 600]);
    start..(start + random.within(1..=most)).min(bytes.len())
}

fn stretch_deleted(bytes: &mut Vec<u8>, random: &mut Random) {
    let stretch = any_stretch(bytes, random);
    bytes.drain(stretch);
}

fn stretch_doubled(bytes: &mut Vec<u8>, random: &mut Random) {
    let stretch = any_stretch(bytes, random);
    let copy = bytes[stretch.clone()].to_vec();
    bytes.splice(stretch.start..stretch.start, copy);
}

fn bytes_swapped(bytes: &mut Vec<u8>, random: &mut Random) {
    let place = any_place(bytes, random);
    if place + 1 < bytes.len() {
        bytes.swap(place, place + 1);
    }
}
