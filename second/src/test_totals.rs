//! Tests of refusals 6 to 11, of the rows and of what is printed.

use crate::check::{printed_rows, Checker, Tables};
use crate::selftest::Bench;
use crate::test_form::{stretch, Tester, GOOD};
use crate::vectors::{with, MESSAGE};

pub fn run(bench: &mut Bench) {
    let tester = Tester::new();
    printed_example(bench, &tester);
    differing(bench, &tester);
    absent(bench, &tester);
    cancelling(bench, &tester);
    tables(bench, &tester);
    rows(bench);
}

const BATCH_COUNT: &str = "</BtchBookg><NbOfTxs>2";
const BATCH_SUM: &str = "</NbOfTxs><CtrlSum>3250.15</CtrlSum><PmtTpInf>";

/// The message of document 01's printed example.
fn example() -> String {
    let batch = stretch("<PmtInf>", "</PmtInf>");
    let pair = stretch("<DrctDbtTxInf>", "</PmtInf>");
    let single = stretch("<DrctDbtTxInf>", "</DrctDbtTxInf>").to_string() + "</PmtInf>";
    let first = batch.replace("<CtrlSum>3250.15</CtrlSum>", "");
    let second = first
        .replace(pair, &single)
        .replace("<NbOfTxs>2</NbOfTxs>", "")
        .replace("1100.07", "3280");
    with(batch, &(first + &second))
        .replacen("<NbOfTxs>2", "<NbOfTxs>3", 1)
        .replacen("3250.15", "6530.15", 1)
}

fn printed_example(bench: &mut Bench, tester: &Tester) {
    let due = "OK 2 3 653015\nB 1 2 325015 2 -\nB 2 1 328000 - -";
    bench.same("the printed example", tester.answer(example()), due);
    let place = example().find("6530.15").unwrap();
    let float = example().replace("6530.15", "6530.14");
    bench.same(
        "a cent less in the header",
        tester.answer(float),
        format!("NO 9 {place}"),
    );
    let lost = example().replace("<NbOfTxs>3", "<NbOfTxs>2");
    bench.same(
        "header count of the example",
        tester.answer(lost),
        "NO 8 203",
    );
}

fn differing(bench: &mut Bench, tester: &Tester) {
    let count = with(BATCH_COUNT, "</BtchBookg><NbOfTxs>3");
    bench.same("batch count", tester.answer(&count), "NO 6 383");
    let sum = with(BATCH_SUM, "</NbOfTxs><CtrlSum>3250.16</CtrlSum><PmtTpInf>");
    bench.same("batch sum", tester.answer(&sum), "NO 7 403");
    let header_count = with("<NbOfTxs>2", "<NbOfTxs>1");
    bench.same(
        "header count of the example",
        tester.answer(header_count),
        "NO 8 203",
    );
    let header_sum = with("3250.15", "3250.14");
    bench.same("header sum", tester.answer(header_sum), "NO 9 223");
    let both_counts = count.replacen("<NbOfTxs>2", "<NbOfTxs>1", 1);
    bench.same("both counts", tester.answer(both_counts), "NO 6 383");
    let both_sums = sum.replacen("3250.15", "0", 1);
    let place = both_sums.find("3250.16").unwrap();
    bench.same(
        "both sums",
        tester.answer(both_sums),
        format!("NO 7 {place}"),
    );
    let spelled = with("<NbOfTxs>2", "<NbOfTxs>000000000000002");
    bench.same("leading zeros", tester.answer(spelled), GOOD);
    let wrapped = with("<NbOfTxs>2", "<NbOfTxs>4294967298");
    bench.same("2 and 2^32", tester.answer(wrapped), "NO 8 203");
}

fn absent(bench: &mut Bench, tester: &Tester) {
    let sum = with(BATCH_SUM, "</NbOfTxs><PmtTpInf>");
    let due = "OK 1 2 325015\nB 1 2 325015 2 -";
    bench.same("no batch sum", tester.answer(&sum), due);
    bench.holds(
        "its row",
        rows_of(&sum).ends_with("R 0 2 325015 1 2 0 0 1\n"),
    );
    let zero = with(BATCH_SUM, "</NbOfTxs><CtrlSum>0</CtrlSum><PmtTpInf>");
    bench.same("batch sum 0", tester.answer(zero), "NO 7 403");
    let count = with("</BtchBookg><NbOfTxs>2</NbOfTxs>", "</BtchBookg>");
    let due = "OK 1 2 325015\nB 1 2 325015 - 325015";
    bench.same("no batch count", tester.answer(&count), due);
    bench.holds(
        "its row",
        rows_of(&count).ends_with("R 0 2 325015 0 0 1 325015 1\n"),
    );
    let booking = with("<BtchBookg>true</BtchBookg>", "");
    bench.same("no BtchBookg", tester.answer(booking), GOOD);
}

/// Two batches whose wrong sums, or counts, cancel out.
fn cancelling(bench: &mut Bench, tester: &Tester) {
    let batch = stretch("<PmtInf>", "</PmtInf>");
    let message = with(batch, &batch.repeat(2))
        .replacen("<NbOfTxs>2", "<NbOfTxs>4", 1)
        .replacen("3250.15", "6500.30", 1);
    let good = "OK 2 4 650030\nB 1 2 325015 2 325015\nB 2 2 325015 2 325015";
    bench.same("two batches", tester.answer(&message), good);
    let sums = message.replacen("3250.15", "3250.16", 1);
    let sums = sums.replacen("3250.15", "3250.14", 1);
    bench.same("cancelling sums", tester.answer(sums), "NO 7 403");
    let counts = message.replacen(BATCH_COUNT, "</BtchBookg><NbOfTxs>1", 1);
    let counts = counts.replacen(BATCH_COUNT, "</BtchBookg><NbOfTxs>3", 1);
    bench.same("cancelling counts", tester.answer(counts), "NO 6 383");
    let sum_then_count = message.replacen("3250.15", "3250.1", 1);
    let place = sum_then_count.rfind(BATCH_COUNT).unwrap();
    let (before, after) = sum_then_count.split_at(place);
    let after = after.replacen(BATCH_COUNT, "</BtchBookg><NbOfTxs>9", 1);
    let answer = tester.answer(format!("{before}{after}"));
    bench.same("7 of batch 1 before 6 of batch 2", answer, "NO 7 403");
}

fn tables(bench: &mut Bench, tester: &Tester) {
    let answer = |slips, batches| tester.answer_with(MESSAGE, Tables { slips, batches });
    bench.same("slip table a number short", answer(23, 8), "NO 10 24");
    bench.same("batch table a number short", answer(24, 7), "NO 11 8");
    bench.same("both tables short", answer(0, 0), "NO 10 24");
    bench.same("tables just long enough", answer(24, 8), GOOD);
    let none = Tables {
        slips: 0,
        batches: 0,
    };
    let wrong = with("3250.15", "3250.14");
    bench.same("9 before 10", tester.answer_with(wrong, none), "NO 9 223");
}

fn rows_of(message: &str) -> String {
    let answer = Checker::new().check(message.as_bytes(), Tables::LONG_ENOUGH);
    answer.map_or(String::new(), |accepted| printed_rows(&accepted))
}

fn rows(bench: &mut Bench) {
    let due = "S 1 110007 914 5 1010 7 1172 14 1218 22 1278 10\n\
               S 1 215008 1353 5 1449 9 1603 14 1649 16 0 0\n\
               R 0 2 325015 1 2 1 325015 1\n";
    bench.same("rows", rows_of(MESSAGE), due);
    let rows = rows_of(&example());
    let batch_rows: Vec<&str> = rows.lines().filter(|row| row.starts_with('R')).collect();
    let due = ["R 0 2 325015 1 2 0 0 1", "R 2 1 328000 0 0 0 0 1"];
    bench.same("batch rows of the example", batch_rows, due);
    let firsts: Vec<&str> = rows.lines().map(|row| &row[..3]).collect();
    bench.same("rows in order", firsts, ["S 1", "S 1", "S 2", "R 0", "R 2"]);
    for (scheme, sequence, terms) in [("CORE", "FRST", 0), ("CORE", "FNAL", 3), ("B2B", "OOFF", 6)]
    {
        let message = with("CORE", scheme).replace("RCUR", sequence);
        let due = format!(" 325015 {terms}\n");
        bench.holds("terms of a batch row", rows_of(&message).ends_with(&due));
    }
}
