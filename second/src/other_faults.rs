//! Faults of any text, of any element, of the root's tag, and before and after the root.

use crate::draft::{any_path, is_text, rule_at, Draft};
use crate::edges::edges;
use crate::profile::{DECLARATION, WHITE_SPACE};
use crate::random::Random;
use crate::tree::Node;
use crate::tree_faults::{apply, TREE_FAULTS};

pub const OTHER_FAULTS: &[fn(&mut Draft, &mut Random)] = &[
    bad_text,
    padded_text,
    some_tree_fault,
    other_start,
    other_document,
    after_the_end,
];

/// Some text breaks its rule.
pub fn bad_text(draft: &mut Draft, random: &mut Random) {
    if let Some(path) = any_path(draft, &is_text, random) {
        if let Some(rule) = rule_at(draft, &path) {
            let mut edges = edges(rule, random);
            edges.retain(|text| !rule.allows(text));
            draft
                .root
                .descendant_mut(&path)
                .set_text(random.pick(&edges));
        }
    }
}

/// White space inside a text, where it is content.
fn padded_text(draft: &mut Draft, random: &mut Random) {
    if let Some(path) = any_path(draft, &is_text, random) {
        let node = draft.root.descendant_mut(&path);
        let mut text = node.text().unwrap_or_default().to_vec();
        let place = random.pick(&[0, text.len()]);
        text.insert(place, random.pick(WHITE_SPACE));
        node.set_text(text);
    }
}

pub fn some_tree_fault(draft: &mut Draft, random: &mut Random) {
    if let Some(path) = any_path(draft, &|_| true, random) {
        apply(random.pick(TREE_FAULTS), draft, &path, random);
    }
}

/// Something else than the declaration, or something before it or after it.
fn other_start(draft: &mut Draft, random: &mut Random) {
    let starts = [
        "\u{feff}".to_string() + DECLARATION,
        "\u{feff}".to_string(),
        DECLARATION.repeat(2),
        format!(" {DECLARATION}"),
        format!("\n\n{DECLARATION}"),
        format!("{DECLARATION}\n{DECLARATION}"),
        format!("{DECLARATION}<!-- -->"),
        format!("{DECLARATION}x"),
        DECLARATION.replace("?>", " ?>"),
        DECLARATION.replace("?>", " standalone=\"no\"?>"),
        DECLARATION.replace("UTF-8", "utf-8"),
        DECLARATION.replace("UTF-8", "ISO-8859-1"),
        DECLARATION.replace('"', "'"),
        DECLARATION.replace("1.0", "1.1"),
        DECLARATION.replace(" encoding=\"UTF-8\"", ""),
        DECLARATION.replace("<?xml ", "<?xml\n"),
        DECLARATION.replace("?>", ">"),
        "<!DOCTYPE Document>".to_string(),
        "\0".to_string(),
    ];
    draft.start = random.pick(&starts).into();
}

/// The root's opening tag is spelled otherwise.
fn other_document(draft: &mut Draft, random: &mut Random) {
    let bytes = draft.root.bytes(random);
    let (from, to) = random.pick(&[
        ("pain.008.001.08", "pain.008.001.02"),
        ("pain.008.001.08", "pain.001.001.09"),
        ("pain.008.001.08", "pain.008.001.080"),
        ("iso:20022:", "iso:2002:"),
        (" xmlns", "  xmlns"),
        ("xmlns=", "xmlns:p="),
        ("\">", "\" >"),
        (
            "\">",
            "\" xmlns:xsi=\"http://www.w3.org/2001/XMLSchema-instance\">",
        ),
        ("<Document", "<document"),
        ("</Document", "</document"),
        ("<Document", "<p:Document"),
    ]);
    let place = bytes.windows(from.len()).position(|w| w == from.as_bytes());
    if let Some(place) = place {
        let (before, after) = (&bytes[..place], &bytes[place + from.len()..]);
        draft.root = Node::raw([before, to.as_bytes(), after].concat());
    }
}

fn after_the_end(draft: &mut Draft, random: &mut Random) {
    let root = draft.root.bytes(random);
    let ends = [
        "\0".into(),
        "x".into(),
        "<!-- -->".into(),
        " \r\n\t".into(),
        "\n<".into(),
        "</Document>".into(),
        "\x1a".into(),
        "\u{feff}".into(),
        root,
    ];
    draft.end = random.pick(&ends);
}
