//! Tests of refusals 51 to 58: every case of the table and each of the 256 bytes, in a message and
//! in a day list; that the table has every text; that the calls begin with these cases.

use crate::answer::Refusal;
use crate::calls::calls;
use crate::check::{Checker, Tables};
use crate::letter_cases;
use crate::profile::{paths, CEILING_LIMIT};
use crate::selftest::Bench;
use crate::test_form::{Tester, GOOD};
use crate::text_cases::{lists, messages, refused_text, TextCase};
use crate::text_table::{FIELDS, SPOILED, TEXTS};
use crate::vectors::with;
use crate::writer::write;

pub fn run(bench: &mut Bench) {
    texts_of_the_table(bench);
    cases_of_the_table(bench);
    cases_of_each_byte(bench);
    differences_from_the_table(bench);
    beginning_of_the_calls(bench);
    let name = with("O'Neil Testing", " ");
    bench.same("a name of a space", Tester::new().answer(name), GOOD);
}

/// The table has every text of the tree, and every field of a list.
fn texts_of_the_table(bench: &mut Bench) {
    let known: Vec<String> = TEXTS.iter().map(|(path, _)| path.to_string()).collect();
    bench.same("texts of the tree", known, text_paths());
    let known: Vec<(usize, usize)> = FIELDS.iter().map(|field| (field.0, field.1)).collect();
    let creditor = (1..=7).map(|field| (1, field));
    let collection = (4..=11).map(|field| (3, field));
    let all: Vec<(usize, usize)> = creditor.chain(collection).collect();
    bench.same("texts of a list", known, all);
    bench.same("fields of a list", SPOILED.concat().len(), 29);
}

/// The names that lead from the header or a batch to each text of the tree, in order.
fn text_paths() -> Vec<String> {
    let all = paths();
    let holds = |path: &[String]| {
        let mut others = all.iter();
        others.any(|other| other.len() > path.len() && other.starts_with(path))
    };
    let texts = all.iter().filter(|path| !holds(path));
    texts.map(|path| path[2..].join(" ")).collect()
}

fn cases_of_the_table(bench: &mut Bench) {
    let (messages, lists) = (messages(), lists());
    bench.same("cases", (messages.len(), lists.len()), (578, 658));
    judge(bench, messages, lists);
}

fn cases_of_each_byte(bench: &mut Bench) {
    let (messages, lists) = (letter_cases::messages(), letter_cases::lists());
    bench.same("bytes", (messages.len(), lists.len()), (1_792, 1_792));
    judge(bench, messages, lists);
}

fn judge(bench: &mut Bench, messages: Vec<TextCase>, lists: Vec<TextCase>) {
    let checker = Checker::new();
    for case in messages {
        let found = checker.check(&case.input, Tables::LONG_ENOUGH);
        bench.same(&case.name, refused_text(&found), case.due);
    }
    for case in lists {
        let found = write(&case.input, CEILING_LIMIT, usize::MAX);
        bench.same(&case.name, refused_text(&found), case.due);
    }
}

/// What is found and is not what the table says gives no answer.
fn differences_from_the_table(bench: &mut Bench) {
    let refusal = |number, place| Refusal {
        number,
        place,
        field: None,
    };
    let answer = |due, found: Result<(), Refusal>| {
        let case = TextCase {
            name: String::new(),
            input: Vec::new(),
            due,
        };
        case.answer(found)
    };
    let (bad, total) = (refusal(51, 9), refusal(6, 9));
    bench.same("allowed, found", answer(None, Ok(())), Some(Ok(())));
    let found = answer(None, Err(total));
    bench.same("allowed, total", found, Some(Err(total)));
    bench.same("allowed, refused", answer(None, Err(bad)), None);
    bench.same("refused, found", answer(Some(bad), Ok(())), None);
    bench.same("refused, total", answer(Some(bad), Err(total)), None);
    let same = answer(Some(bad), Err(bad));
    bench.same("refused, refused", same, Some(Err(bad)));
    for other in [refusal(52, 9), refusal(51, 8)] {
        bench.same("refused otherwise", answer(Some(bad), Err(other)), None);
    }
}

/// The calls of every seed begin with the fixed cases, whatever their number.
fn beginning_of_the_calls(bench: &mut Bench) {
    let stream = |seed, count| {
        let mut bytes = Vec::new();
        calls(seed, count, &mut bytes).map(|()| bytes).unwrap()
    };
    let fixed = stream(1, 0);
    bench.holds("fixed calls of another seed", fixed == stream(2, 0));
    let without_end = &fixed[..fixed.len() - 1];
    bench.holds("further calls", stream(3, 20).starts_with(without_end));
}
