//! The form as an automaton over bytes. The profile tree is a regular expression: each byte that
//! it names, each white space and each text is a position, and `follow` says which positions may
//! come next. Reading keeps the set of positions that the last byte may have been.

use crate::profile::{closing, opening, root, Part, DECLARATION, WHITE_SPACE};

const START: usize = 0;

/// The bytes that a position takes.
enum Class {
    Nothing,
    One(u8),
    WhiteSpace,
    Text,
}

impl Class {
    fn takes(&self, byte: u8) -> bool {
        match self {
            Class::Nothing => false,
            Class::One(only) => byte == *only,
            Class::WhiteSpace => WHITE_SPACE.contains(&byte),
            Class::Text => byte != b'<',
        }
    }
}

pub struct Automaton {
    classes: Vec<Class>,
    follow: Vec<Vec<usize>>,
    last: Vec<bool>,
}

impl Automaton {
    /// The automaton of all messages of the form.
    pub fn of_the_form() -> Automaton {
        let mut builder = Builder::new();
        let span = builder.message();
        builder.link(&[START], &span.first);
        let mut last = vec![false; builder.classes.len()];
        span.last.iter().for_each(|&position| last[position] = true);
        Automaton {
            classes: builder.classes,
            follow: builder.follow,
            last,
        }
    }

    /// None for a message of the form, else the length of the longest beginning that it shares
    /// with one: every position leads on to a last one, so a beginning is shared as long as the
    /// set is not empty.
    pub fn place(&self, message: &[u8]) -> Option<usize> {
        let mut now = vec![START];
        let mut next = Vec::new();
        let mut reached_at = vec![usize::MAX; self.classes.len()];
        for (place, &byte) in message.iter().enumerate() {
            next.clear();
            for &position in now.iter().flat_map(|&before| &self.follow[before]) {
                if reached_at[position] != place && self.classes[position].takes(byte) {
                    reached_at[position] = place;
                    next.push(position);
                }
            }
            if next.is_empty() {
                return Some(place);
            }
            std::mem::swap(&mut now, &mut next);
        }
        let complete = now.iter().any(|&position| self.last[position]);
        (!complete).then_some(message.len())
    }
}

/// An expression already laid out: whether it may be empty, and its first and last positions.
struct Span {
    empty: bool,
    first: Vec<usize>,
    last: Vec<usize>,
}

impl Span {
    fn nothing() -> Span {
        Span {
            empty: true,
            first: Vec::new(),
            last: Vec::new(),
        }
    }
}

struct Builder {
    classes: Vec<Class>,
    follow: Vec<Vec<usize>>,
}

impl Builder {
    fn new() -> Builder {
        Builder {
            classes: vec![Class::Nothing],
            follow: vec![Vec::new()],
        }
    }

    fn one(&mut self, class: Class) -> Span {
        let position = self.classes.len();
        self.classes.push(class);
        self.follow.push(Vec::new());
        Span {
            empty: false,
            first: vec![position],
            last: vec![position],
        }
    }

    fn link(&mut self, last: &[usize], first: &[usize]) {
        for &before in last {
            for &after in first {
                if !self.follow[before].contains(&after) {
                    self.follow[before].push(after);
                }
            }
        }
    }

    fn then(&mut self, a: Span, b: Span) -> Span {
        self.link(&a.last, &b.first);
        let (mut first, mut last) = (a.first, b.last);
        if a.empty {
            first.extend(b.first);
        }
        if b.empty {
            last.extend(a.last);
        }
        let empty = a.empty && b.empty;
        Span { empty, first, last }
    }

    fn either(mut a: Span, b: Span) -> Span {
        a.empty |= b.empty;
        a.first.extend(b.first);
        a.last.extend(b.last);
        a
    }

    fn optional(span: Span) -> Span {
        Span {
            empty: true,
            ..span
        }
    }

    fn repeated(&mut self, span: Span) -> Span {
        self.link(&span.last, &span.first);
        span
    }

    /// Any amount of a class of bytes.
    fn run(&mut self, class: Class) -> Span {
        let one = self.one(class);
        Builder::optional(self.repeated(one))
    }

    fn bytes(&mut self, text: &str) -> Span {
        text.bytes().fold(Span::nothing(), |before, byte| {
            let one = self.one(Class::One(byte));
            self.then(before, one)
        })
    }

    fn message(&mut self) -> Span {
        let declaration = self.bytes(DECLARATION);
        let white_space = self.run(Class::WhiteSpace);
        let before = self.then(Builder::optional(declaration), white_space);
        let root = self.part(&root());
        self.then(before, root)
    }

    /// A part of the tree, each of its elements with the white space after it.
    fn part(&mut self, part: &Part) -> Span {
        match part {
            Part::Text(name) => {
                let text = self.run(Class::Text);
                self.element(name, text)
            }
            Part::Holder(name, parts) => {
                let white_space = self.run(Class::WhiteSpace);
                let children = parts.iter().fold(white_space, |before, child| {
                    let child = self.part(child);
                    self.then(before, child)
                });
                self.element(name, children)
            }
            Part::Optional(part) => Builder::optional(self.part(part)),
            Part::Repeated(part) => {
                let span = self.part(part);
                self.repeated(span)
            }
            Part::UpTo(most, part) => (0..*most).fold(Span::nothing(), |more, _| {
                let span = self.part(part);
                let with_more = self.then(span, more);
                Builder::optional(with_more)
            }),
            Part::Either(parts) => {
                let spans: Vec<Span> = parts.iter().map(|part| self.part(part)).collect();
                spans.into_iter().reduce(Builder::either).unwrap()
            }
        }
    }

    fn element(&mut self, name: &str, content: Span) -> Span {
        let opening = self.bytes(&opening(name));
        let opened = self.then(opening, content);
        let closing = self.bytes(&closing(name));
        let closed = self.then(opened, closing);
        let white_space = self.run(Class::WhiteSpace);
        self.then(closed, white_space)
    }
}
