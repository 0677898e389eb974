//! Calls of the library for tests/driver.c: inputs with the lengths of the buffers that are lent,
//! and all that must come of each call, as one stream. A number has eight bytes, low first; a row
//! of numbers or bytes comes after how many there are:
//!
//! - `I`, bytes: the input of the calls that follow;
//! - `C`, the lengths of slip and batch table, the answer (number, place, batches, transactions,
//!   cents), the numbers that go into the slip table, those that go into the batch table: a check;
//! - `W`, the ceiling, the length of the output, the answer (number, place, field), the bytes that
//!   go into the output: a write;
//! - `E`: the end.
//!
//! The stream begins with the cases of the table of refusals 51 to 58, those of each of the 256
//! bytes, and those of the table of postal addresses, one call for each, the same whatever the
//! seed; then come the calls of the seed.

use crate::address_cases::{self, summary, AddressCase};
use crate::answer::Refusal;
use crate::check::{Accepted, Checker, Tables};
use crate::letter_cases;
use crate::limit_cases::{LISTS, MESSAGES};
use crate::list_cases::list;
use crate::message_cases::message;
use crate::profile::{CEILING_LIMIT, MESSAGE_LIMIT, PROGRAM_LIMIT};
use crate::random::Random;
use crate::text_cases::{self, TextCase};
use crate::writer::write;
use std::io;

/// Lengths far above what is needed: of a table in numbers, of an output in bytes.
const FAR_TABLE: usize = 30_000;
const FAR_OUTPUT: usize = MESSAGE_LIMIT + 100_000;

/// An input that is not refused is called with so many lengths; one at the limits with all.
const LENGTHS: usize = 3;

/// Tables and an output that are long enough for every case of the table of refusals 51 to 58.
const TEXT_TABLES: Tables = Tables {
    slips: 120,
    batches: 64,
};
const TEXT_OUTPUT: usize = 4_000;

/// Writes the calls of the tables and so many of a seed.
pub fn calls(seed: u64, count: u64, out: &mut dyn io::Write) -> io::Result<()> {
    let mut messages = text_cases::messages();
    messages.extend(letter_cases::messages());
    let mut lists = text_cases::lists();
    lists.extend(letter_cases::lists());
    let addresses = address_cases::cases();
    let fixed = messages.len() + addresses.len() + lists.len();
    let mut calls = Calls {
        checker: Checker::new(),
        random: Random::new(!seed, u64::MAX),
        left: count.saturating_add(fixed as u64),
        out,
    };
    for case in &messages {
        calls.check_of_the_table(case)?;
    }
    for case in &addresses {
        calls.check_of_addresses(case)?;
    }
    for case in &lists {
        calls.write_of_the_table(case)?;
    }
    let mut case = 0;
    while calls.left > 0 {
        calls.of_a_case(seed, case)?;
        case += 1;
    }
    calls.out.write_all(b"E")
}

struct Calls<'a> {
    checker: Checker,
    random: Random,
    left: u64,
    out: &'a mut dyn io::Write,
}

impl Calls<'_> {
    /// The check of a message of the table.
    fn check_of_the_table(&mut self, case: &TextCase) -> io::Result<()> {
        let found = self.checker.check(&case.input, TEXT_TABLES);
        let due = as_the_table_says(case, found)?;
        self.input(&case.input)?;
        match due {
            Ok(accepted) => self.accepted(&accepted, TEXT_TABLES),
            Err(refusal) => self.refused(refusal, TEXT_TABLES),
        }
    }

    /// The check of a message with postal addresses.
    fn check_of_addresses(&mut self, case: &AddressCase) -> io::Result<()> {
        let message = case.message.as_bytes();
        let found = self.checker.check(message, case.tables);
        if summary(&found) != case.due {
            let (name, due, found) = (&case.name, &case.due, summary(&found));
            let difference = format!("{name}: the table says {due:?}, found {found:?}");
            return Err(io::Error::other(difference));
        }
        self.input(message)?;
        match found {
            Ok(accepted) => self.accepted(&accepted, case.tables),
            Err(refusal) => self.refused(refusal, case.tables),
        }
    }

    /// The write for a list of the table.
    fn write_of_the_table(&mut self, case: &TextCase) -> io::Result<()> {
        let found = write(&case.input, CEILING_LIMIT, TEXT_OUTPUT);
        let due = as_the_table_says(case, found)?;
        self.input(&case.input)?;
        self.written(CEILING_LIMIT, TEXT_OUTPUT, due)
    }

    /// A message and a list; every tenth case has two at the limits beside them, as long as there
    /// are any, and every eighth message may have any length.
    fn of_a_case(&mut self, seed: u64, case: u64) -> io::Result<()> {
        if case % 10 == 0 {
            self.at_the_limits(case as usize / 10)?;
        }
        let most = match case % 8 {
            0 => MESSAGE_LIMIT + 50_000,
            _ => PROGRAM_LIMIT,
        };
        self.checks(&message(seed, case, most), LENGTHS)?;
        let (list, ceiling) = list(seed, case);
        self.writes(&list, &[ceiling], LENGTHS)
    }

    fn at_the_limits(&mut self, index: usize) -> io::Result<()> {
        if let Some(make) = MESSAGES.get(index) {
            let message = make(&mut self.random);
            self.checks(&message, usize::MAX)?;
        }
        if let Some(make) = LISTS.get(index) {
            let (list, ceiling) = make(&mut self.random);
            let ceilings = [0, 1, 2, CEILING_LIMIT, CEILING_LIMIT + 1, u64::MAX];
            let other = self.random.pick(&ceilings);
            self.writes(&list, &[ceiling, other], usize::MAX)?;
        }
        Ok(())
    }

    /// Checks of a message, with at most so many lengths of the tables.
    fn checks(&mut self, message: &[u8], most: usize) -> io::Result<()> {
        self.input(message)?;
        match self.checker.check(message, Tables::LONG_ENOUGH) {
            Ok(accepted) => {
                let tables = lengths_of_tables(accepted.tables());
                let mut tables = self.some(tables, most).into_iter();
                tables.try_for_each(|tables| self.accepted(&accepted, tables))
            }
            Err(refusal) => {
                let slips = self.random.pick(&[0, 11, 12, 120, 24_000, FAR_TABLE]);
                let batches = self.random.pick(&[0, 7, 8, 512, FAR_TABLE]);
                self.refused(refusal, Tables { slips, batches })
            }
        }
    }

    /// The check of a message that nothing but its tables refuses.
    fn accepted(&mut self, accepted: &Accepted, tables: Tables) -> io::Result<()> {
        if let Err(refusal) = accepted.fits(tables) {
            return self.refused(refusal, tables);
        }
        let batches = accepted.batches.len() as u64;
        let answer = [0, 0, batches, accepted.transactions, accepted.cents];
        let rows: Vec<_> = accepted.batches.iter().map(|batch| batch.row()).collect();
        self.check(tables, answer, &accepted.slip_rows.concat(), &rows.concat())
    }

    fn refused(&mut self, refusal: Refusal, tables: Tables) -> io::Result<()> {
        let answer = [u64::from(refusal.number), refusal.place as u64, 0, 0, 0];
        self.check(tables, answer, &[], &[])
    }

    fn check(
        &mut self,
        tables: Tables,
        answer: [u64; 5],
        slips: &[u64],
        batches: &[u64],
    ) -> io::Result<()> {
        let record = Record::of(b'C')
            .numbers(&[tables.slips as u64, tables.batches as u64])
            .numbers(&answer)
            .numbers(&[slips.len() as u64])
            .numbers(slips)
            .numbers(&[batches.len() as u64])
            .numbers(batches);
        self.call(record)
    }

    /// Writes for a list, at each ceiling with at most so many lengths of the output.
    fn writes(&mut self, list: &[u8], ceilings: &[u64], most: usize) -> io::Result<()> {
        self.input(list)?;
        for &ceiling in ceilings {
            let lengths = match write(list, ceiling, usize::MAX) {
                Ok(message) => lengths_of_output(message.len()),
                Err(_) => vec![self.random.pick(&[0, 1, 2_000, FAR_OUTPUT])],
            };
            for length in self.some(lengths, most) {
                self.written(ceiling, length, write(list, ceiling, length))?;
            }
        }
        Ok(())
    }

    /// A write with its ceiling and the length of the output, and what must come of it.
    fn written(
        &mut self,
        ceiling: u64,
        length: usize,
        due: Result<String, Refusal>,
    ) -> io::Result<()> {
        let (answer, message) = match due {
            Ok(message) => ([0, message.len() as u64, 0], message),
            Err(refusal) => {
                let field = refusal.field.unwrap_or(0);
                let answer = [refusal.number.into(), refusal.place as u64, field as u64];
                (answer, String::new())
            }
        };
        let record = Record::of(b'W')
            .numbers(&[ceiling, length as u64])
            .numbers(&answer)
            .numbers(&[message.len() as u64])
            .bytes(message.as_bytes());
        self.call(record)
    }

    /// At most so many of these.
    fn some<T>(&mut self, mut all: Vec<T>, most: usize) -> Vec<T> {
        while all.len() > most {
            all.swap_remove(self.random.below(all.len()));
        }
        all
    }

    fn input(&mut self, bytes: &[u8]) -> io::Result<()> {
        let record = Record::of(b'I').numbers(&[bytes.len() as u64]).bytes(bytes);
        self.out.write_all(&record.0)
    }

    fn call(&mut self, record: Record) -> io::Result<()> {
        if self.left == 0 {
            return Ok(());
        }
        self.left -= 1;
        self.out.write_all(&record.0)
    }
}

/// Tables exactly long enough, one too short, empty, one longer and far too long.
fn lengths_of_tables(needed: Tables) -> Vec<Tables> {
    let (s, b) = (needed.slips, needed.batches);
    let lengths = [
        (s, b),
        (s, b),
        (s + 1, b + 1),
        (FAR_TABLE, FAR_TABLE),
        (s - 1, b),
        (s, b - 1),
        (s - 1, b - 1),
        (0, FAR_TABLE),
        (FAR_TABLE, 0),
        (0, 0),
    ];
    lengths
        .map(|(slips, batches)| Tables { slips, batches })
        .into()
}

/// An output exactly long enough, one too short, empty, one longer and far too long.
fn lengths_of_output(needed: usize) -> Vec<usize> {
    vec![needed, needed, needed + 1, FAR_OUTPUT, needed - 1, 0]
}

/// The answer that the table says; an error where this program finds another, since one of them
/// is at fault then.
fn as_the_table_says<T>(
    case: &TextCase,
    found: Result<T, Refusal>,
) -> io::Result<Result<T, Refusal>> {
    let refusal = found.as_ref().err().copied();
    case.answer(found).ok_or_else(|| {
        let (name, due, found) = (&case.name, said(case.due), said(refusal));
        io::Error::other(format!("{name}: the table says {due}, found {found}"))
    })
}

fn said(refusal: Option<Refusal>) -> String {
    refusal.map_or("OK".to_string(), |refusal| refusal.to_string())
}

/// One part of the stream.
struct Record(Vec<u8>);

impl Record {
    fn of(kind: u8) -> Record {
        Record(vec![kind])
    }

    fn numbers(mut self, numbers: &[u64]) -> Record {
        self.0
            .extend(numbers.iter().flat_map(|number| number.to_le_bytes()));
        self
    }

    fn bytes(mut self, bytes: &[u8]) -> Record {
        self.0.extend(bytes);
        self
    }
}
