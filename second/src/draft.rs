//! A message that is not rendered yet: its tree, what stands before and after it, and where white
//! space stands.

use crate::address_draft::Addresses;
use crate::profile::{ADDRESS, DECLARATION};
use crate::random::Random;
use crate::rules::{rule_of, Rule};
use crate::samples::Size;
use crate::tree::{grow, Body, Node, Presence, Shape, Spacing};

/// A message that is not rendered yet.
pub struct Draft {
    pub start: Vec<u8>,
    pub root: Node,
    pub spacing: Spacing,
    pub end: Vec<u8>,
}

impl Draft {
    pub fn rendered(&self, random: &mut Random) -> Vec<u8> {
        let mut bytes = self.start.clone();
        bytes.extend(self.spacing.gap(0, random));
        self.root.render(self.spacing, 0, random, &mut bytes);
        bytes.extend(self.spacing.gap(0, random));
        bytes.extend(&self.end);
        bytes
    }
}

pub fn draft(shape: &Shape, spacing: Spacing, random: &mut Random) -> Draft {
    let declaration = random.pick(&["", DECLARATION, DECLARATION]);
    Draft {
        start: declaration.into(),
        root: grow(shape, random),
        spacing,
        end: Vec::new(),
    }
}

pub fn any_spacing(random: &mut Random) -> Spacing {
    random.pick(&[
        Spacing::Nowhere,
        Spacing::Nowhere,
        Spacing::Lines("\n"),
        Spacing::Lines("\r\n"),
        Spacing::Anywhere,
        Spacing::Everywhere,
    ])
}

pub fn any_presence(random: &mut Random) -> Presence {
    random.pick(&[
        Presence::Absent,
        Presence::Present,
        Presence::Mixed,
        Presence::Mixed,
    ])
}

/// One message in four may have addresses.
pub fn any_addresses(random: &mut Random) -> Addresses {
    match random.once_in(4) {
        true => Addresses::Anywhere,
        false => Addresses::Nowhere,
    }
}

fn few_batches(random: &mut Random) -> Vec<usize> {
    let batches = random.pick(&[1, 1, 1, 2, 2, 3, 4]);
    (0..batches).map(|_| random.pick(&[1, 1, 2, 3])).collect()
}

/// A good message of a few transactions.
pub fn simple(random: &mut Random) -> Draft {
    let addresses = any_addresses(random);
    simple_with(addresses, random)
}

/// The same with at least one address.
pub fn with_addresses(random: &mut Random) -> Draft {
    loop {
        let draft = simple_with(Addresses::Anywhere, random);
        if !draft.root.paths(&|node| node.name == ADDRESS).is_empty() {
            return draft;
        }
    }
}

fn simple_with(addresses: Addresses, random: &mut Random) -> Draft {
    let shape = Shape {
        batches: few_batches(random),
        size: random.pick(&[Size::Any, Size::Any, Size::Any, Size::Least, Size::Most]),
        presence: any_presence(random),
        addresses,
    };
    let spacing = any_spacing(random);
    draft(&shape, spacing, random)
}

pub fn good_draft(most: usize, random: &mut Random) -> Draft {
    if !random.once_in(8) {
        return simple(random);
    }
    let batches = random.within(1..=12);
    let room = (most / 1_200 / batches).clamp(1, 8);
    let shape = Shape {
        batches: (0..batches).map(|_| random.within(1..=room)).collect(),
        size: Size::Any,
        presence: any_presence(random),
        addresses: any_addresses(random),
    };
    let spacing = any_spacing(random);
    draft(&shape, spacing, random)
}

/// A random node of the tree that is wanted, if there is one.
pub fn any_path(
    draft: &Draft,
    wanted: &dyn Fn(&Node) -> bool,
    random: &mut Random,
) -> Option<Vec<usize>> {
    let paths = draft.root.paths(wanted);
    (!paths.is_empty()).then(|| random.pick(&paths))
}

pub fn is_text(node: &Node) -> bool {
    node.text().is_some()
}

pub fn is_holder(node: &Node) -> bool {
    matches!(node.body, Body::Children(_))
}

/// The paths to the texts of a rule.
pub fn texts_of(draft: &Draft, rule: Rule) -> Vec<Vec<usize>> {
    let mut paths = draft.root.paths(&is_text);
    paths.retain(|path| rule_at(draft, path) == Some(rule));
    paths
}

/// The paths to the nodes that these names lead to.
pub fn nodes_of(draft: &Draft, names: &[String]) -> Vec<Vec<usize>> {
    let mut paths = draft.root.paths(&|_| true);
    paths.retain(|path| draft.root.names(path) == names);
    paths
}

pub fn rule_at(draft: &Draft, path: &[usize]) -> Option<Rule> {
    let names = draft.root.names(path);
    let names: Vec<&str> = names.iter().map(String::as_str).collect();
    rule_of(&names)
}
