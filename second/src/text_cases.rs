//! The cases of the table: messages and day lists that have each of its texts, and ones by name,
//! such as which of two faults is refused; each with the refusal that is due. They are the same
//! whatever the seed. The self-test judges them, and the calls begin with them.

use crate::address_draft::Addresses;
use crate::answer::Refusal;
use crate::daylist::DayList;
use crate::draft::{draft, nodes_of};
use crate::frames;
use crate::profile::ADDRESS;
use crate::random::Random;
use crate::samples::Size;
use crate::text_table::{FIELDS, SPOILED, TEXTS, VALUES};
use crate::tree::{Presence, Shape, Spacing};
use crate::vectors::{day_list, list_with_text, with, with_bytes, LIST, MESSAGE};

/// An input and the refusal that the table says; None where it allows every text.
pub struct TextCase {
    pub name: String,
    pub input: Vec<u8>,
    pub due: Option<Refusal>,
}

impl TextCase {
    /// The answer that is due: the table's refusal or, where it allows every text, the one that
    /// was found. None: what was found is not what the table says.
    pub fn answer<T>(&self, found: Result<T, Refusal>) -> Option<Result<T, Refusal>> {
        match (self.due, refused_text(&found)) {
            (None, None) => Some(found),
            (Some(due), Some(refusal)) if refusal == due => Some(Err(due)),
            _ => None,
        }
    }

    pub fn of_a_message(
        name: &str,
        message: impl Into<Vec<u8>>,
        number: u32,
        place: usize,
    ) -> Self {
        TextCase {
            name: name.to_string(),
            input: message.into(),
            due: due(number, place, None),
        }
    }

    pub fn of_a_list(name: &str, list: impl Into<Vec<u8>>, number: u32, place: Field) -> Self {
        let (line, field) = place;
        TextCase {
            name: format!("{name}, line {line}, field {field}"),
            input: list.into(),
            due: due(number, line, Some(field)),
        }
    }
}

/// A line of a list and a field of it, both counted as in a refusal.
pub type Field = (usize, usize);

/// The refusal with a number of the table, where 0 is none.
fn due(number: u32, place: usize, field: Option<usize>) -> Option<Refusal> {
    let refusal = Refusal {
        number,
        place,
        field,
    };
    (number > 0).then_some(refusal)
}

/// The refusal that an answer is, but for one of a total: the table does not say whether the
/// totals fit.
pub fn refused_text<T>(answer: &Result<T, Refusal>) -> Option<Refusal> {
    let refusal = answer.as_ref().err().copied();
    refusal.filter(|refusal| !(6..=9).contains(&refusal.number))
}

/// The messages of the table.
pub fn messages() -> Vec<TextCase> {
    let parts = [
        texts_of_a_message(),
        end_to_end_ids(),
        other_texts(),
        shapes_and_counts(),
        named_messages(),
    ];
    parts.into_iter().flatten().collect()
}

/// The lists of the table, for the greatest ceiling.
pub fn lists() -> Vec<TextCase> {
    let parts = [
        fields_of_a_list(),
        values_of_a_list(),
        first_fault_of_a_text(),
        named_lists(),
        first_of_two_fields(),
    ];
    parts.into_iter().flatten().collect()
}

/// Every text of the tree, each way that the table has.
fn texts_of_a_message() -> Vec<TextCase> {
    let mut cases = Vec::new();
    for (path, kind) in &TEXTS {
        let (before, after) = around(path);
        cases.extend(kind.texts().into_iter().map(|(text, number)| {
            let message = [&before[..], &text, &after].concat();
            TextCase::of_a_message(&named(path, &text), message, number, before.len())
        }));
    }
    cases
}

/// The bytes before and after the first text that the names lead to, in a good message that has
/// it.
fn around(path: &str) -> (Vec<u8>, Vec<u8>) {
    let names = "Document CstmrDrctDbtInitn ".to_string() + path;
    let names: Vec<String> = names.split(' ').map(str::to_string).collect();
    let shape = Shape {
        batches: vec![2, 1],
        size: Size::Any,
        presence: Presence::Present,
        addresses: match path.contains(ADDRESS) {
            true => Addresses::Everywhere,
            false => Addresses::Nowhere,
        },
    };
    let random = &mut Random::new(51, 58);
    loop {
        let mut draft = draft(&shape, Spacing::Nowhere, random);
        if let Some(node) = nodes_of(&draft, &names).first() {
            draft.root.descendant_mut(node).set_text(b"\0");
            let bytes = draft.rendered(random);
            let place = bytes.iter().position(|&byte| byte == 0).unwrap();
            return (bytes[..place].to_vec(), bytes[place + 1..].to_vec());
        }
    }
}

fn named(place: &str, text: &[u8]) -> String {
    format!("{place}: {:?}", String::from_utf8_lossy(text))
}

/// The first EndToEndId of the vectors' message.
fn end_to_end_ids() -> Vec<TextCase> {
    let texts = [
        ("F>E 1", 52),
        ("F&E 1", 52),
        ("F\0E 1", 52),
        ("", 51),
        ("/FEE", 53),
        ("FEE]]>", 52),
        ("F\u{e9}E", 52),
    ];
    let cases = texts.map(|(text, number)| {
        let message = with(">FEE 1<", &format!(">{text}<"));
        TextCase::of_a_message(&named("EndToEndId", text.as_bytes()), message, number, 914)
    });
    cases.into()
}

/// Texts of the vectors' message with two faults, and ones about the bank that is not provided.
fn other_texts() -> Vec<TextCase> {
    let texts: [(&str, &[u8], u32); 5] = [
        ("O'Neil Testing", &long_name(), 51),
        ("FEE 1", &strange_id(), 52),
        ("NOTPROVIDED", b"NOTPROVIDEX", 56),
        ("BBRUBEBB", b"NOTPROVIDED", 57),
        ("BANKGB2L", b"NOTPROVIDED", 57),
    ];
    let cases = texts.map(|(text, other, number)| {
        let (message, place) = with_bytes(text, other);
        TextCase::of_a_message(&named(text, other), message, number, place)
    });
    cases.into()
}

/// A name of 71 bytes with a letter outside the set.
fn long_name() -> Vec<u8> {
    [&[b'a'; 70][..], b"\xFC"].concat()
}

/// An identifier of 35 bytes that begins with a slash and has such a letter.
fn strange_id() -> Vec<u8> {
    [&b"/"[..], &[b'a'; 33], b"\xFC"].concat()
}

/// A bad IBAN or creditor identifier comes before the wrong count of transactions.
fn shapes_and_counts() -> Vec<TextCase> {
    let texts = [
        ("GB29", "GB28", 58),
        ("GB29", "gb29", 57),
        ("GB29", "gb28", 57),
        ("BE69", "BE78", 58),
        ("BE69", "be69", 57),
        ("BE69", "be78", 57),
    ];
    let cases = texts.map(|(text, other, number)| {
        let place = MESSAGE.find(text).unwrap();
        let message = with(text, other).replacen("<NbOfTxs>2", "<NbOfTxs>3", 1);
        TextCase::of_a_message(&format!("{other}, wrong count"), message, number, place)
    });
    cases.into()
}

fn named_messages() -> Vec<TextCase> {
    let instruction = with("<PmtId>", "<PmtId><InstrId>A//B</InstrId>");
    let sixteen = with("<NbOfTxs>2", "<NbOfTxs>0000000000000002");
    let two = with("T09:30:00", "T24:00:00").replacen("Leak Labs Bureau", "", 1);
    let blank = with("O'Neil Testing", " ");
    vec![
        TextCase::of_a_message("bad InstrId", instruction, 53, 911),
        TextCase::of_a_message("16 digits", sixteen, 54, 203),
        TextCase::of_a_message("two bad texts", two, 55, 165),
        TextCase::of_a_message("a name of a space", blank, 0, 0),
    ]
}

/// Every text of a day list, each way that the table has.
fn fields_of_a_list() -> Vec<TextCase> {
    let mut cases = Vec::new();
    for (line, field, kind, may_be_empty) in &FIELDS {
        cases.extend(kind.texts().into_iter().map(|(text, number)| {
            let number = match text.is_empty() && *may_be_empty {
                true => 0,
                false => number,
            };
            let list = list_with_text(*line, *field, &text);
            TextCase::of_a_list(&named("list", &text), list, number, (*line, *field))
        }));
    }
    cases
}

/// The fields of a collection that are no texts.
fn values_of_a_list() -> Vec<TextCase> {
    let cases = VALUES.map(|(digits, others, field, number)| {
        let list = LIST.replacen(digits, others, 1);
        TextCase::of_a_list(others, list, number, (2, field))
    });
    cases.into()
}

/// 51 comes before 52, and 52 before 53.
fn first_fault_of_a_text() -> Vec<TextCase> {
    let names = [(1, 3), (1, 4), (3, 9)].map(|place| (place, long_name(), 51));
    let ids = [(1, 1), (3, 5), (3, 6)].map(|place| (place, strange_id(), 52));
    let texts = names.into_iter().chain(ids);
    texts
        .map(|((line, field), text, number)| {
            let list = list_with_text(line, field, &text);
            TextCase::of_a_list("two faults of a text", list, number, (line, field))
        })
        .collect()
}

fn named_lists() -> Vec<TextCase> {
    let collections = &LIST[LIST.find('\n').unwrap() + 1..];
    let mostly_empty = format!("01022F61000000000000\n{collections}");
    let tag = list_with_text(3, 9, b"A<B");
    let most = list_with_text(2, 11, &[b'a'; 255]);
    vec![
        TextCase::of_a_list("/a and nothing else", mostly_empty, 53, (1, 1)),
        TextCase::of_a_list("a tag's sign", tag, 52, (3, 9)),
        TextCase::of_a_list("255 bytes of remittance", most, 51, (2, 11)),
    ]
}

/// Every field of the vectors' list that is spoiled, alone and with every later one: of two lines
/// the first is refused, of a line the first field.
fn first_of_two_fields() -> Vec<TextCase> {
    let all = spoiled_fields();
    let mut cases = Vec::new();
    for (index, &(place, number)) in all.iter().enumerate() {
        cases.extend(all[index..].iter().map(|&(other, _)| {
            let mut list = day_list();
            spoil(&mut list, place);
            spoil(&mut list, other);
            let list = frames::list(&list.creditor, &list.collections);
            let name = format!("spoiled with line {}, field {}", other.0, other.1);
            TextCase::of_a_list(&name, list, number, place)
        }));
    }
    cases
}

/// The fields of the vectors' list, with their numbers when they are spoiled.
fn spoiled_fields() -> Vec<(Field, u32)> {
    let lines = SPOILED.iter().zip(1..);
    lines
        .flat_map(|(numbers, line)| {
            let fields = numbers.iter().zip(1..);
            fields.map(move |(&number, field)| ((line, field), number))
        })
        .collect()
}

fn spoil(list: &mut DayList, (line, field): Field) {
    match (line, field) {
        (1, _) => list.creditor.texts[field - 1] = vec![0xFC; 3],
        (_, 1) => list.collections[line - 2].scheme = 2,
        (_, 2) => list.collections[line - 2].sequence = 4,
        (_, 3) => list.collections[line - 2].cents = 0,
        _ => list.collections[line - 2].texts[field - 4] = vec![0xFC; 3],
    }
}
