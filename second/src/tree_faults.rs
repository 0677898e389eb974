//! Faults in the tree, at one of its elements: the element is missing, doubled, elsewhere, spelled
//! otherwise, or has something beside it or inside it that is not of the form.

use crate::draft::Draft;
use crate::profile::DECLARATION;
use crate::random::Random;
use crate::tree::{Body, Node};

pub type TreeFault = fn(&mut Vec<Node>, usize, &mut Random);

pub const TREE_FAULTS: &[TreeFault] = &[
    dropped,
    doubled,
    swapped,
    renamed,
    empty_element,
    emptied,
    other_tag,
    comment,
    stray_text,
    element_inside,
    bank_beside,
    not_closed,
    not_opened,
];

/// Applies a fault to the node at the end of a path.
pub fn apply(fault: TreeFault, draft: &mut Draft, path: &[usize], random: &mut Random) {
    if let Some((&index, holder)) = path.split_last() {
        if let Some(children) = draft.root.descendant_mut(holder).children_mut() {
            fault(children, index, random);
        }
    }
}

fn dropped(children: &mut Vec<Node>, index: usize, _: &mut Random) {
    children.remove(index);
}

fn doubled(children: &mut Vec<Node>, index: usize, _: &mut Random) {
    children.insert(index, children[index].clone());
}

fn swapped(children: &mut Vec<Node>, index: usize, _: &mut Random) {
    let other = (index + 1) % children.len();
    children.swap(index, other);
}

/// The name is in small letters, a letter short, of a source document or of another element.
fn renamed(children: &mut Vec<Node>, index: usize, random: &mut Random) {
    let names = [
        "NbOfTx",
        "NbOfTxes",
        "ReqColltnDt",
        "CdtrAgnt",
        "BIC",
        "Nmm",
        "N",
        "Id",
        "Othr",
        "Cdtr",
        "Dbtr",
        "CdtrAcct",
        "CdtTrfTxInf",
        "UltmtDbtr",
        "ns:Nm",
    ];
    let name = children[index].name.clone();
    children[index].name = match random.below(3) {
        0 => name.to_lowercase(),
        1 => name[..name.len().saturating_sub(1)].to_string(),
        _ => random.pick(&names).to_string(),
    };
}

fn empty_element(children: &mut Vec<Node>, index: usize, random: &mut Random) {
    let name = &children[index].name;
    let tag = random.pick(&[format!("<{name}/>"), format!("<{name} />")]);
    children[index] = Node::raw(tag);
}

/// An element holds nothing, or white space.
fn emptied(children: &mut Vec<Node>, index: usize, random: &mut Random) {
    let inside = random.pick(&["", " ", "\n"]);
    children[index].body = Body::Children(vec![Node::raw(inside)]);
}

/// An element with a tag spelled otherwise.
fn other_tag(children: &mut Vec<Node>, index: usize, random: &mut Random) {
    let bytes = children[index].bytes(random);
    let (from, to) = random.pick(&[
        (">", " >"),
        (">", "\n>"),
        (">", " a=\"1\">"),
        (">", "/>"),
        (">", ">>"),
        ("</", "</ "),
        ("</", "< /"),
        ("</", "</x:"),
        ("</", "<"),
        ("EUR", "USD"),
        ("\"", "'"),
        (" Ccy=\"EUR\"", ""),
        ("<", "<x:"),
        ("<", "< "),
        ("<", "&lt;"),
    ]);
    children[index] = Node::raw(replaced(&bytes, from.as_bytes(), to.as_bytes(), random));
}

/// The first or the last find of `from` is exchanged for `to`.
fn replaced(bytes: &[u8], from: &[u8], to: &[u8], random: &mut Random) -> Vec<u8> {
    let mut windows = bytes.windows(from.len());
    let found = match random.once_in(2) {
        true => windows.position(|window| window == from),
        false => windows.rposition(|window| window == from),
    };
    match found {
        Some(place) => [&bytes[..place], to, &bytes[place + from.len()..]].concat(),
        None => bytes.to_vec(),
    }
}

/// Comments and the like, before or after an element.
fn comment(children: &mut Vec<Node>, index: usize, random: &mut Random) {
    let texts = [
        "<!-- -->",
        "<!---->",
        "<![CDATA[ ]]>",
        "<?pi?>",
        DECLARATION,
        "<!DOCTYPE Document>",
    ];
    let text = random.pick(&texts);
    children.insert(index + random.below(2), Node::raw(text));
}

/// Text where elements are due, before or after an element.
fn stray_text(children: &mut Vec<Node>, index: usize, random: &mut Random) {
    let texts = [
        "x", " x ", ">", "/", "0", "\u{a0}", "\0", "\x0b", "\x0c", "&#32;", "\u{85}", "\x1f", "!",
        "\x08", "\x0e",
    ];
    let text = random.pick(&texts);
    children.insert(index + random.below(2), Node::raw(text));
}

/// Another element, or half of one, inside an element.
fn element_inside(children: &mut Vec<Node>, index: usize, random: &mut Random) {
    let elements = [
        "<a>",
        "<a></a>",
        "<Id>1</Id>",
        "1<b/>",
        "<!-- -->1",
        "<![CDATA[1]]>",
    ];
    let more = random.pick(&elements);
    match &mut children[index].body {
        Body::Children(inside) => {
            let place = random.within(0..=inside.len());
            inside.insert(place, Node::raw(more));
        }
        Body::Text(text) | Body::Raw(text) => text.extend(more.bytes()),
    }
}

/// A bank's BICFI or Othr, before or after an element.
fn bank_beside(children: &mut Vec<Node>, index: usize, random: &mut Random) {
    let banks = [
        "<BICFI>BANKGB2L</BICFI>",
        "<Othr><Id>NOTPROVIDED</Id></Othr>",
    ];
    let bank = random.pick(&banks);
    children.insert(index + random.below(2), Node::raw(bank));
}

fn not_closed(children: &mut Vec<Node>, index: usize, random: &mut Random) {
    let mut bytes = children[index].bytes(random);
    let end = bytes.windows(2).rposition(|two| two == b"</");
    bytes.truncate(end.unwrap_or(0));
    children[index] = Node::raw(bytes);
}

fn not_opened(children: &mut Vec<Node>, index: usize, random: &mut Random) {
    let bytes = children[index].bytes(random);
    let end = bytes.iter().position(|&byte| byte == b'>');
    children[index] = Node::raw(&bytes[end.map_or(0, |end| end + 1)..]);
}
