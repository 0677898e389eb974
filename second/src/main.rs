//! The second program of the payments desk: its command line.

mod address_cases;
mod address_draft;
mod address_faults;
mod address_forms;
mod address_table;
mod addresses;
mod answer;
mod automaton;
mod bundle;
mod byte_faults;
mod calls;
mod cases;
mod check;
mod content;
mod daylist;
mod draft;
mod edges;
mod frames;
mod letter_cases;
mod limit_cases;
mod list_cases;
mod list_draft;
mod list_faults;
mod message_cases;
mod other_faults;
mod profile;
mod random;
mod rules;
mod samples;
mod selftest;
mod shape_edges;
mod test_addresses;
mod test_bundle;
mod test_cases;
mod test_faults;
mod test_form;
mod test_lists;
mod test_texts;
mod test_totals;
mod text_cases;
mod text_table;
mod total_faults;
mod tree;
mod tree_faults;
mod vectors;
mod writer;

use answer::{CHECK_NUMBERS, WRITE_NUMBERS};
use cases::{check_cases, reach, write_cases, Arrays, Order};
use check::{printed, printed_rows, Checker, Tables};
use std::io::{self, Read, Write};
use std::path::Path;
use std::process::ExitCode;

const USAGE: &str = "usage:
  second check [--limit] [--tables SLIPS BATCHES] [--rows] < MESSAGE
  second write CEILING [--room BYTES] < LIST
  second cases check SEED COUNT DIR [--max BYTES] [--tables]
  second cases write SEED COUNT DIR [--room | --arrays LIST MESSAGE]
  second reach check|write DIR
  second calls SEED COUNT
  second selftest";

fn main() -> ExitCode {
    let words: Vec<String> = std::env::args().skip(1).collect();
    let words: Vec<&str> = words.iter().map(String::as_str).collect();
    match run(&words) {
        Ok(code) => code,
        Err(fault) => {
            eprintln!("{fault}");
            ExitCode::from(2)
        }
    }
}

type Fault = Box<dyn std::error::Error>;

fn run(words: &[&str]) -> Result<ExitCode, Fault> {
    match words {
        ["check", options @ ..] => check_input(&check_options(options)?)?,
        ["write", ceiling, options @ ..] => write_input(any_number(ceiling)?, room(options)?)?,
        ["cases", "check", seed, count, directory, options @ ..] => {
            let options = case_options(options)?;
            let order = order(seed, count, directory)?;
            check_cases(&order, options.most, options.own_tables)?;
        }
        ["cases", "write", seed, count, directory, options @ ..] => {
            let order = order(seed, count, directory)?;
            match options {
                [] => write_cases(&order, false, Arrays::LONG_ENOUGH)?,
                ["--room"] => write_cases(&order, true, Arrays::LONG_ENOUGH)?,
                ["--arrays", list, message] => {
                    let (list, message) = (length(list)?, length(message)?);
                    write_cases(&order, false, Arrays { list, message })?
                }
                _ => return Err(USAGE.into()),
            }
        }
        ["reach", "check", directory] => print(&reach(Path::new(directory), CHECK_NUMBERS)?)?,
        ["reach", "write", directory] => print(&reach(Path::new(directory), WRITE_NUMBERS)?)?,
        ["calls", seed, count] => {
            let mut out = io::BufWriter::new(io::stdout().lock());
            calls::calls(number(seed)?, number(count)?, &mut out)?;
            out.flush()?;
        }
        ["selftest"] if !selftest::run() => return Ok(ExitCode::FAILURE),
        ["selftest"] => {}
        _ => return Err(USAGE.into()),
    }
    Ok(ExitCode::SUCCESS)
}

fn number(word: &str) -> Result<u64, Fault> {
    word.parse().map_err(|_| USAGE.into())
}

/// A number of any length; what is too great to be held is as good as the greatest that is.
fn any_number(word: &str) -> Result<u64, Fault> {
    let digits = !word.is_empty() && word.bytes().all(|byte| byte.is_ascii_digit());
    match (number(word), digits) {
        (Err(_), true) => Ok(u64::MAX),
        (result, _) => result,
    }
}

fn length(word: &str) -> Result<usize, Fault> {
    word.parse().map_err(|_| USAGE.into())
}

fn input() -> io::Result<Vec<u8>> {
    let mut bytes = Vec::new();
    io::stdin().read_to_end(&mut bytes)?;
    Ok(bytes)
}

fn print(text: &str) -> io::Result<()> {
    io::stdout().write_all(text.as_bytes())
}

struct CheckOptions {
    limit: bool,
    tables: Tables,
    rows: bool,
}

fn check_options(words: &[&str]) -> Result<CheckOptions, Fault> {
    match words {
        [] => Ok(CheckOptions {
            limit: false,
            tables: Tables::LONG_ENOUGH,
            rows: false,
        }),
        ["--limit", more @ ..] => Ok(CheckOptions {
            limit: true,
            ..check_options(more)?
        }),
        ["--rows", more @ ..] => Ok(CheckOptions {
            rows: true,
            ..check_options(more)?
        }),
        ["--tables", slips, batches, more @ ..] => Ok(CheckOptions {
            tables: Tables {
                slips: length(slips)?,
                batches: length(batches)?,
            },
            ..check_options(more)?
        }),
        _ => Err(USAGE.into()),
    }
}

fn check_input(options: &CheckOptions) -> io::Result<()> {
    let bytes = input()?;
    if options.limit && bytes.len() > profile::PROGRAM_LIMIT {
        return print(profile::TOO_LONG);
    }
    let answer = Checker::new().check(&bytes, options.tables);
    print(&printed(&answer))?;
    match answer {
        Ok(accepted) if options.rows => print(&printed_rows(&accepted)),
        _ => Ok(()),
    }
}

fn room(words: &[&str]) -> Result<usize, Fault> {
    match words {
        [] => Ok(usize::MAX),
        ["--room", bytes] => length(bytes),
        _ => Err(USAGE.into()),
    }
}

fn write_input(ceiling: u64, room: usize) -> io::Result<()> {
    match writer::write(&input()?, ceiling, room) {
        Ok(message) => print(&message),
        Err(refusal) => print(&format!("{refusal}\n")),
    }
}

struct CaseOptions {
    most: usize,
    own_tables: bool,
}

fn case_options(words: &[&str]) -> Result<CaseOptions, Fault> {
    match words {
        [] => Ok(CaseOptions {
            most: profile::PROGRAM_LIMIT,
            own_tables: false,
        }),
        ["--max", bytes, more @ ..] => Ok(CaseOptions {
            most: length(bytes)?,
            ..case_options(more)?
        }),
        ["--tables", more @ ..] => Ok(CaseOptions {
            own_tables: true,
            ..case_options(more)?
        }),
        _ => Err(USAGE.into()),
    }
}

fn order<'a>(seed: &str, count: &str, directory: &'a str) -> Result<Order<'a>, Fault> {
    Ok(Order {
        seed: number(seed)?,
        count: number(count)?,
        directory: Path::new(directory),
    })
}
