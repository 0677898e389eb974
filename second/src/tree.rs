//! A message as a tree of nodes, grown from the profile, so that it can be damaged before it is
//! rendered. A node may also be raw bytes, which are of no element.

use crate::address_draft::{furnish, Addresses};
use crate::profile::{closing, opening, root, Part, ADDRESS, WHITE_SPACE};
use crate::random::Random;
use crate::rules::{amount, rule_of};
use crate::samples::{good, spelled_cents, spelled_count, Size};

#[derive(Clone)]
pub enum Body {
    Text(Vec<u8>),
    Children(Vec<Node>),
    Raw(Vec<u8>),
}

#[derive(Clone)]
pub struct Node {
    pub name: String,
    pub body: Body,
}

/// Where white space stands.
#[derive(Clone, Copy)]
pub enum Spacing {
    Nowhere,
    Lines(&'static str),
    Anywhere,
    Everywhere,
}

/// Which of the elements that may be missing are there.
#[derive(Clone, Copy)]
pub enum Presence {
    Absent,
    Present,
    Mixed,
}

/// The number of transactions of each batch, the length of the texts, the presence and the
/// postal addresses.
pub struct Shape {
    pub batches: Vec<usize>,
    pub size: Size,
    pub presence: Presence,
    pub addresses: Addresses,
}

/// A good message of that shape, with every total right.
pub fn grow(shape: &Shape, random: &mut Random) -> Node {
    let mut grower = Grower {
        shape,
        random,
        batch: 0,
        path: Vec::new(),
    };
    let mut root = grower.part(&root()).remove(0);
    furnish(&mut root, shape.addresses, shape.size, random);
    root.declare(random);
    root
}

struct Grower<'a> {
    shape: &'a Shape,
    random: &'a mut Random,
    batch: usize,
    path: Vec<String>,
}

impl Grower<'_> {
    /// What grows for a part of the tree. Addresses do not: what they hold depends on a date.
    fn part(&mut self, part: &Part) -> Vec<Node> {
        match part {
            Part::Holder(name, _) if name == ADDRESS => Vec::new(),
            Part::Text(name) => vec![self.text(name)],
            Part::Holder(name, parts) => vec![self.holder(name, parts)],
            Part::Optional(part) if self.present() => self.part(part),
            Part::Optional(_) | Part::UpTo(..) => Vec::new(),
            Part::Repeated(part) => self.repeated(part),
            Part::Either(parts) => {
                let index = self.random.below(parts.len());
                self.part(&parts[index])
            }
        }
    }

    fn text(&mut self, name: &str) -> Node {
        self.path.push(name.to_string());
        let names: Vec<&str> = self.path.iter().map(String::as_str).collect();
        let rule = rule_of(&names).expect("the profile has a rule for each of its texts");
        let text = good(rule, self.shape.size, self.random);
        self.path.pop();
        Node::new(name, Body::Text(text))
    }

    fn holder(&mut self, name: &str, parts: &[Part]) -> Node {
        self.path.push(name.to_string());
        let children = parts.iter().flat_map(|part| self.part(part)).collect();
        self.path.pop();
        Node::new(name, Body::Children(children))
    }

    fn present(&mut self) -> bool {
        match self.shape.presence {
            Presence::Absent => false,
            Presence::Present => true,
            Presence::Mixed => self.random.once_in(2),
        }
    }

    /// Batches stand inside no batch, transactions inside the batch that is being grown.
    fn repeated(&mut self, part: &Part) -> Vec<Node> {
        if self.path.iter().any(|name| name == "PmtInf") {
            let transactions = self.shape.batches[self.batch];
            return (0..transactions).flat_map(|_| self.part(part)).collect();
        }
        let mut batches = Vec::new();
        for batch in 0..self.shape.batches.len() {
            self.batch = batch;
            batches.extend(self.part(part));
        }
        batches
    }
}

impl Node {
    pub fn new(name: &str, body: Body) -> Node {
        let name = name.to_string();
        Node { name, body }
    }

    pub fn raw(bytes: impl Into<Vec<u8>>) -> Node {
        Node::new("", Body::Raw(bytes.into()))
    }

    pub fn children(&self) -> &[Node] {
        match &self.body {
            Body::Children(children) => children,
            _ => &[],
        }
    }

    pub fn children_mut(&mut self) -> Option<&mut Vec<Node>> {
        match &mut self.body {
            Body::Children(children) => Some(children),
            _ => None,
        }
    }

    pub fn text(&self) -> Option<&[u8]> {
        match &self.body {
            Body::Text(text) => Some(text),
            _ => None,
        }
    }

    pub fn set_text(&mut self, text: impl Into<Vec<u8>>) {
        self.body = Body::Text(text.into());
    }

    pub fn child_mut(&mut self, name: &str) -> Option<&mut Node> {
        let mut children = self.children_mut()?.iter_mut();
        children.find(|child| child.name == name)
    }

    pub fn descendant_mut(&mut self, path: &[usize]) -> &mut Node {
        path.iter().fold(self, |node, &index| {
            &mut node.children_mut().expect("a path leads through holders")[index]
        })
    }

    /// The paths, by index, to all nodes below this one that are wanted, in message order.
    pub fn paths(&self, wanted: &dyn Fn(&Node) -> bool) -> Vec<Vec<usize>> {
        let mut paths = Vec::new();
        for (index, child) in self.children().iter().enumerate() {
            if wanted(child) {
                paths.push(vec![index]);
            }
            let below = child.paths(wanted).into_iter();
            paths.extend(below.map(|path| [vec![index], path].concat()));
        }
        paths
    }

    /// The names on the way to a node.
    pub fn names(&self, path: &[usize]) -> Vec<String> {
        let mut node = self;
        let mut names = vec![node.name.clone()];
        for &index in path {
            node = &node.children()[index];
            names.push(node.name.clone());
        }
        names
    }

    /// All nodes of that name, in message order.
    pub fn named_mut(&mut self, name: &str) -> Vec<&mut Node> {
        let mut found = Vec::new();
        for child in self.children_mut().into_iter().flatten() {
            if child.name == name {
                found.push(child);
            } else {
                found.extend(child.named_mut(name));
            }
        }
        found
    }

    /// The number of transactions below and their cents; an amount that breaks its rule is 0.
    pub fn totals(&self) -> (u64, u64) {
        if self.name == "DrctDbtTxInf" {
            let amounts = self.children().iter().filter(|n| n.name == "InstdAmt");
            let cents = amounts.filter_map(|node| amount(node.text()?)).sum();
            return (1, cents);
        }
        let totals = self.children().iter().map(Node::totals);
        totals.fold((0, 0), |(n, s), (count, cents)| (n + count, s + cents))
    }

    /// Writes the right totals, in any right spelling, into every declaration that is there.
    pub fn declare(&mut self, random: &mut Random) {
        let totals = self.totals();
        for header in self.named_mut("GrpHdr") {
            header.declare_as(totals, random);
        }
        for batch in self.named_mut("PmtInf") {
            batch.declare_as(batch.totals(), random);
        }
    }

    pub fn declare_as(&mut self, (count, cents): (u64, u64), random: &mut Random) {
        if let Some(node) = self.child_mut("NbOfTxs") {
            node.set_text(spelled_count(count, random));
        }
        if let Some(node) = self.child_mut("CtrlSum") {
            node.set_text(spelled_cents(cents, 15, random));
        }
    }

    /// The bytes of this node, without white space.
    pub fn bytes(&self, random: &mut Random) -> Vec<u8> {
        let mut bytes = Vec::new();
        self.render(Spacing::Nowhere, 0, random, &mut bytes);
        bytes
    }

    pub fn render(&self, spacing: Spacing, depth: usize, random: &mut Random, out: &mut Vec<u8>) {
        let element = !matches!(self.body, Body::Raw(_));
        if element {
            out.extend(opening(&self.name).bytes());
        }
        match &self.body {
            Body::Text(bytes) | Body::Raw(bytes) => out.extend(bytes),
            Body::Children(children) => {
                for child in children {
                    out.extend(spacing.gap(depth + 1, random));
                    child.render(spacing, depth + 1, random, out);
                }
                out.extend(spacing.gap(depth, random));
            }
        }
        if element {
            out.extend(closing(&self.name).bytes());
        }
    }
}

impl Spacing {
    /// The white space at one place where it may stand.
    pub fn gap(self, depth: usize, random: &mut Random) -> Vec<u8> {
        let length = match self {
            Spacing::Nowhere => 0,
            Spacing::Lines(line) => return (line.to_string() + &"  ".repeat(depth)).into(),
            Spacing::Anywhere => random.pick(&[0, 0, 0, 1, 2, 3]),
            Spacing::Everywhere => random.within(1..=4),
        };
        random.bytes(WHITE_SPACE, length)
    }
}
