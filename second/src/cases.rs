//! Cases in files: generated inputs with the answers that they must have, and how many cases of a
//! directory have each outcome.

use crate::check::{printed, Accepted, Checker, Tables};
use crate::list_cases::list;
use crate::message_cases::message;
use crate::profile::{PROGRAM_LIMIT, TOO_LONG};
use crate::random::Random;
use crate::writer::write;
use std::collections::BTreeMap;
use std::fs;
use std::io;
use std::path::Path;

/// Which cases are generated: so many of a seed.
pub struct Order<'a> {
    pub seed: u64,
    pub count: u64,
    pub directory: &'a Path,
}

/// Writes messages of at most so many bytes and what the checking program prints for them; with
/// `own_tables`, each case has tables of its own lengths.
pub fn check_cases(order: &Order, most: usize, own_tables: bool) -> io::Result<()> {
    let checker = Checker::new();
    fs::create_dir_all(order.directory)?;
    for case in 0..order.count {
        let bytes = message(order.seed, case, most);
        let mut answer = checker.check(&bytes, Tables::LONG_ENOUGH);
        if own_tables {
            let tables = some_tables(answer.ok().as_ref(), &mut side_random(order.seed, case));
            answer = checker.check(&bytes, tables);
            let lengths = format!("{} {}", tables.slips, tables.batches);
            order.put(case, "tables", lengths.as_bytes())?;
        }
        order.put(case, "in", &bytes)?;
        order.put(case, "out", printed(&answer).as_bytes())?;
    }
    Ok(())
}

/// Which lists and messages the writing program's arrays hold.
#[derive(Clone, Copy)]
pub struct Arrays {
    pub list: usize,
    pub message: usize,
}

impl Arrays {
    pub const LONG_ENOUGH: Arrays = Arrays {
        list: usize::MAX,
        message: usize::MAX,
    };
}

/// Writes lists, ceilings and what the writing program prints for them; with `own_room`, each case
/// has an output of its own length. A written message that the checking program reads comes with
/// what that prints for it.
pub fn write_cases(order: &Order, own_room: bool, arrays: Arrays) -> io::Result<()> {
    let checker = Checker::new();
    fs::create_dir_all(order.directory)?;
    for case in 0..order.count {
        let (bytes, ceiling) = list(order.seed, case);
        let mut answer = write(&bytes, ceiling, usize::MAX);
        if own_room {
            let needed = answer.map_or(0, |message| message.len());
            let room = about(needed, &mut side_random(order.seed, case));
            answer = write(&bytes, ceiling, room);
            order.put(case, "room", room.to_string().as_bytes())?;
        }
        let out = match answer {
            _ if bytes.len() > arrays.list => TOO_LONG.to_string(),
            Ok(message) if message.len() > arrays.message => TOO_LONG.to_string(),
            Ok(message) => message,
            Err(refusal) => format!("{refusal}\n"),
        };
        order.put(case, "in", &bytes)?;
        order.put(case, "ceiling", ceiling.to_string().as_bytes())?;
        order.put(case, "out", out.as_bytes())?;
        if outcome(out.as_bytes()) == "OK" && out.len() <= PROGRAM_LIMIT {
            let checked = checker.check(out.as_bytes(), Tables::LONG_ENOUGH);
            order.put(case, "checked", printed(&checked).as_bytes())?;
        }
    }
    Ok(())
}

impl Order<'_> {
    fn put(&self, case: u64, kind: &str, bytes: &[u8]) -> io::Result<()> {
        fs::write(self.directory.join(format!("{case:05}.{kind}")), bytes)
    }
}

/// Numbers for the lengths of a case, so that its input is the same with and without them.
fn side_random(seed: u64, case: u64) -> Random {
    Random::new(!seed, case)
}

fn some_tables(accepted: Option<&Accepted>, random: &mut Random) -> Tables {
    let (transactions, batches) = accepted.map_or((0, 0), |accepted| {
        (accepted.slip_rows.len(), accepted.batches.len())
    });
    Tables {
        slips: about(12 * transactions, random),
        batches: about(8 * batches, random),
    }
}

/// A length that is enough, or not quite, or not at all.
fn about(needed: usize, random: &mut Random) -> usize {
    let half = random.within(0..=needed);
    let lengths = [
        needed,
        needed,
        needed + 1,
        needed + 1_000,
        needed.saturating_sub(1),
        half,
        0,
    ];
    random.pick(&lengths)
}

/// How many of a directory's cases have each of the outcomes.
pub fn reach(directory: &Path, numbers: &[u32]) -> io::Result<String> {
    let mut found: BTreeMap<String, usize> = BTreeMap::new();
    for entry in fs::read_dir(directory)? {
        let path = entry?.path();
        if path.extension().is_some_and(|extension| extension == "out") {
            *found.entry(outcome(&fs::read(path)?)).or_default() += 1;
        }
    }
    let names = numbers.iter().map(|number| number.to_string());
    let outcomes = ["OK".to_string()].into_iter().chain(names);
    let lines = outcomes.map(|name| format!("{name}: {}\n", found.remove(&name).unwrap_or(0)));
    let mut lines: String = lines.collect();
    for (name, count) in found {
        lines += &format!("{name}: {count}\n");
    }
    Ok(lines)
}

/// The number of a refusal, else OK or whatever else is printed.
fn outcome(out: &[u8]) -> String {
    let start = String::from_utf8_lossy(&out[..out.len().min(20)]).into_owned();
    let words: Vec<&str> = start.split_whitespace().collect();
    match words[..] {
        ["NO", number, ..] => number.to_string(),
        ["OK" | "<?xml", ..] => "OK".to_string(),
        _ => start.trim_end().to_string(),
    }
}
