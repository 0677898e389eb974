//! The table of postal addresses, written out from the papers: every mix on both sides of the last
//! date of unstructured addresses, other dates, two batches, and which of two faults is refused.
//! `address_forms` has those about form and texts, `address_cases` makes messages of both. A `^`
//! stands where the refusal's place is, and is no part of the message; 0 means accepted.

/// Town, country and lines as they stand in an address, with the numbers on 2026-11-14 and on
/// 2026-11-15: where nothing else is in the address, and where a detail is.
type Mix = (&'static str, [u32; 2], [u32; 2]);

pub const MIX_DATES: [&str; 2] = ["2026-11-14", "2026-11-15"];

/// Every mix.
pub const MIXES: [Mix; 8] = [
    ("", [59, 59], [59, 59]),
    ("<TwnNm>Geneve</TwnNm>", [59, 59], [59, 59]),
    ("<Ctry>CH</Ctry>", [0, 59], [59, 59]),
    ("<AdrLine>1207 Geneve</AdrLine>", [0, 59], [59, 59]),
    ("<TwnNm>Geneve</TwnNm><Ctry>CH</Ctry>", [0, 0], [0, 0]),
    (
        "<TwnNm>Geneve</TwnNm><AdrLine>Rue du Lac 12</AdrLine>",
        [59, 59],
        [59, 59],
    ),
    (
        "<Ctry>CH</Ctry><AdrLine>1207 Geneve</AdrLine>",
        [0, 59],
        [59, 59],
    ),
    (
        "<TwnNm>Geneve</TwnNm><Ctry>CH</Ctry><AdrLine>Rue du Lac 12</AdrLine>",
        [0, 0],
        [0, 0],
    ),
];

/// The mixes of a line once more, with two of them.
pub const MIXES_OF_TWO_LINES: [Mix; 4] = [
    (
        "<AdrLine>Rue du Lac 12</AdrLine><AdrLine>1207 Geneve</AdrLine>",
        [0, 59],
        [59, 59],
    ),
    (
        "<TwnNm>Geneve</TwnNm><AdrLine>Rue du Lac</AdrLine><AdrLine>12</AdrLine>",
        [59, 59],
        [59, 59],
    ),
    (
        "<Ctry>CH</Ctry><AdrLine>Rue du Lac 12</AdrLine><AdrLine>1207 Geneve</AdrLine>",
        [0, 59],
        [59, 59],
    ),
    (
        "<TwnNm>Geneve</TwnNm><Ctry>CH</Ctry><AdrLine>Rue du Lac</AdrLine><AdrLine>12</AdrLine>",
        [0, 0],
        [0, 0],
    ),
];

/// Each detail, and all of them.
pub const DETAILS: [&str; 4] = [
    "<StrtNm>Rue du Lac</StrtNm>",
    "<BldgNb>12</BldgNb>",
    "<PstCd>1207</PstCd>",
    "<StrtNm>Rue du Lac</StrtNm><BldgNb>12</BldgNb><PstCd>1207</PstCd>",
];

/// Collection dates, with the number of an unstructured address at each. The others are good at
/// all of them.
pub const DATES: [(&str, u32); 24] = [
    ("1900-01-01", 0),
    ("1999-12-31", 0),
    ("2025-10-04", 0),
    ("2025-11-15", 0),
    ("2025-12-31", 0),
    ("2026-01-01", 0),
    ("2026-02-28", 0),
    ("2026-09-30", 0),
    ("2026-10-15", 0),
    ("2026-10-31", 0),
    ("2026-11-01", 0),
    ("2026-11-09", 0),
    ("2026-11-13", 0),
    ("2026-11-14", 0),
    ("2026-11-15", 59),
    ("2026-11-16", 59),
    ("2026-11-20", 59),
    ("2026-11-21", 59),
    ("2026-11-22", 59),
    ("2026-12-01", 59),
    ("2027-01-01", 59),
    ("2027-11-14", 59),
    ("2030-10-10", 59),
    ("2099-12-31", 59),
];

/// The addresses of a batch: of its creditor, of its first and of its second debtor.
pub type Three = [&'static str; 3];

const NONE: Three = [""; 3];
const EARLY: &str = "2026-11-14";
const LATE: &str = "2026-11-15";

/// Addresses by their kinds, one with all that it may hold, bad ones, and the same where the
/// refusal's place is at their `<`.
pub const STRUCTURED: &str = "<PstlAdr><TwnNm>Geneve</TwnNm><Ctry>CH</Ctry></PstlAdr>";
pub const HYBRID: &str =
    "<PstlAdr><TwnNm>Geneve</TwnNm><Ctry>CH</Ctry><AdrLine>Rue du Lac</AdrLine></PstlAdr>";
const FULL: &str = "<PstlAdr><StrtNm>Rue du Lac</StrtNm><BldgNb>12</BldgNb><PstCd>1207</PstCd>\
                    <TwnNm>Geneve</TwnNm><Ctry>CH</Ctry><AdrLine>Entree B</AdrLine>\
                    <AdrLine>Etage 3</AdrLine></PstlAdr>";
const COUNTRY: &str = "<PstlAdr><Ctry>CH</Ctry></PstlAdr>";
const COUNTRY_HERE: &str = "^<PstlAdr><Ctry>CH</Ctry></PstlAdr>";
const BAD: &str = "<PstlAdr><TwnNm>Geneve</TwnNm></PstlAdr>";
pub const BAD_HERE: &str = "^<PstlAdr><TwnNm>Geneve</TwnNm></PstlAdr>";
const EMPTY_HERE: &str = "^<PstlAdr></PstlAdr>";

/// Messages of two batches: the date and the addresses of each, and the number.
pub const TWO_BATCHES: [([(&str, Three); 2], u32); 20] = [
    ([(EARLY, [COUNTRY; 3]), (EARLY, [COUNTRY; 3])], 0),
    ([(EARLY, [COUNTRY; 3]), (LATE, NONE)], 0),
    ([(EARLY, [COUNTRY; 3]), (LATE, [STRUCTURED; 3])], 0),
    ([(EARLY, NONE), (LATE, [COUNTRY_HERE, "", ""])], 59),
    ([(EARLY, NONE), (LATE, ["", COUNTRY_HERE, ""])], 59),
    ([(EARLY, NONE), (LATE, ["", "", COUNTRY_HERE])], 59),
    (
        [(EARLY, [COUNTRY; 3]), (LATE, [COUNTRY_HERE, COUNTRY, ""])],
        59,
    ),
    (
        [
            (EARLY, [COUNTRY; 3]),
            (LATE, [STRUCTURED, HYBRID, COUNTRY_HERE]),
        ],
        59,
    ),
    ([(LATE, NONE), (EARLY, [COUNTRY; 3])], 0),
    ([(LATE, [HYBRID; 3]), (EARLY, [COUNTRY; 3])], 0),
    ([(LATE, [COUNTRY_HERE, "", ""]), (EARLY, NONE)], 59),
    ([(LATE, ["", COUNTRY_HERE, ""]), (EARLY, NONE)], 59),
    ([(LATE, ["", "", COUNTRY_HERE]), (EARLY, NONE)], 59),
    ([(LATE, ["", "", COUNTRY_HERE]), (EARLY, [COUNTRY; 3])], 59),
    ([(LATE, ["", "", COUNTRY_HERE]), (LATE, [COUNTRY; 3])], 59),
    ([(EARLY, [BAD_HERE, "", ""]), (EARLY, [BAD; 3])], 59),
    ([(EARLY, ["", "", BAD_HERE]), (EARLY, [BAD, "", ""])], 59),
    ([(EARLY, ["", "", BAD_HERE]), (LATE, [COUNTRY, "", ""])], 59),
    ([(LATE, NONE), (EARLY, [COUNTRY, BAD_HERE, BAD])], 59),
    (
        [(EARLY, NONE), (EARLY, [STRUCTURED, COUNTRY, BAD_HERE])],
        59,
    ),
];

const BATCH_COUNT: &str = "</BtchBookg><NbOfTxs>";
const BATCH_SUM: &str = "<CtrlSum>3250.15</CtrlSum><PmtTpInf>";

/// A text of the message and what takes the place of its first find.
pub type Change = (&'static str, &'static str);

/// Addresses of a message, changes of it, and the number.
pub type Order = (Three, &'static [Change], u32);

/// Which of two addresses is refused; that other dates do not matter.
pub const FIRSTS: [Order; 16] = [
    ([STRUCTURED, HYBRID, COUNTRY], &[], 0),
    ([COUNTRY, STRUCTURED, HYBRID], &[], 0),
    ([FULL, COUNTRY, COUNTRY], &[], 0),
    ([FULL; 3], &[], 0),
    ([FULL, EMPTY_HERE, ""], &[], 59),
    ([BAD_HERE, BAD, BAD], &[], 59),
    ([BAD_HERE, "", BAD], &[], 59),
    ([EMPTY_HERE, BAD, ""], &[], 59),
    (["", BAD_HERE, BAD], &[], 59),
    (["", EMPTY_HERE, BAD], &[], 59),
    ([STRUCTURED, BAD_HERE, BAD], &[], 59),
    ([STRUCTURED, COUNTRY, BAD_HERE], &[], 59),
    ([COUNTRY; 3], &[("2026-11-02T", "2026-11-20T")], 0),
    ([COUNTRY; 3], &[("2009-09-01", "2026-11-15")], 0),
    (["", COUNTRY_HERE, ""], &[("2026-11-10", "2026-11-15")], 59),
    ([HYBRID; 3], &[("2026-11-10", "2026-11-15")], 0),
];

/// A bad mix comes before every wrong total; with good addresses the totals are refused.
pub const TOTALS: [Order; 14] = [
    (
        [BAD_HERE, "", ""],
        &[(BATCH_COUNT, "</BtchBookg><NbOfTxs>1")],
        59,
    ),
    (
        ["", "", BAD_HERE],
        &[(BATCH_COUNT, "</BtchBookg><NbOfTxs>1")],
        59,
    ),
    (
        [BAD_HERE, "", ""],
        &[(BATCH_SUM, "<CtrlSum>0</CtrlSum><PmtTpInf>")],
        59,
    ),
    (
        ["", "", BAD_HERE],
        &[(BATCH_SUM, "<CtrlSum>0</CtrlSum><PmtTpInf>")],
        59,
    ),
    ([BAD_HERE, "", ""], &[("<NbOfTxs>2", "<NbOfTxs>3")], 59),
    (["", "", BAD_HERE], &[("<NbOfTxs>2", "<NbOfTxs>3")], 59),
    ([BAD_HERE, "", ""], &[("3250.15", "3250.16")], 59),
    (["", "", BAD_HERE], &[("3250.15", "3250.16")], 59),
    (
        ["", EMPTY_HERE, ""],
        &[("<NbOfTxs>2", "<NbOfTxs>3"), ("3250.15", "0")],
        59,
    ),
    (
        [COUNTRY_HERE, "", ""],
        &[("2026-11-10", "2099-12-31"), ("<NbOfTxs>2", "<NbOfTxs>0")],
        59,
    ),
    (
        [STRUCTURED; 3],
        &[(BATCH_COUNT, "</BtchBookg><NbOfTxs>^1")],
        6,
    ),
    (
        [HYBRID; 3],
        &[(BATCH_SUM, "<CtrlSum>^0</CtrlSum><PmtTpInf>")],
        7,
    ),
    ([COUNTRY; 3], &[("<NbOfTxs>2", "<NbOfTxs>^3")], 8),
    ([STRUCTURED, "", COUNTRY], &[("3250.15", "^3250.16")], 9),
];

/// A bad text or tag anywhere comes before a bad mix; of two bad texts the first is refused.
pub const TEXTS_AND_TAGS: [Order; 21] = [
    ([BAD, "", ""], &[("RUN-2026/07", "^RUN//07")], 53),
    ([BAD, "", ""], &[("2026-11-10", "^2026-11-31")], 55),
    ([BAD, "", ""], &[("<Nm>O'Neil Testing", "<Nm>^")], 51),
    (
        [BAD, "", ""],
        &[("BE68539007547034", "^BE69539007547034")],
        58,
    ),
    ([BAD, "", ""], &[("<Prtry>SEPA", "<Prtry>^CORE")], 56),
    ([BAD, "", ""], &[(">FEE 1<", ">^/FEE 1<")], 53),
    ([BAD, "", ""], &[("1100.07", "^0.00")], 54),
    (
        [BAD, BAD, ""],
        &[("<Ustrd>Facture N1", "<Ustrd>^Facture N_1")],
        52,
    ),
    ([BAD, BAD, BAD], &[("BANKGB2L", "^bankgb2l")], 57),
    (
        [BAD, BAD, BAD],
        &[("BE30001216371411", "^BE31001216371411")],
        58,
    ),
    (
        ["", "", BAD],
        &[("BE30001216371411", "^BE31001216371411")],
        58,
    ),
    (
        [
            BAD,
            "",
            "<PstlAdr><PstCd>^12345678901234567</PstCd></PstlAdr>",
        ],
        &[],
        51,
    ),
    (
        [BAD, "<PstlAdr><AdrLine>^\u{e8}</AdrLine></PstlAdr>", BAD],
        &[],
        52,
    ),
    (
        [BAD, STRUCTURED, "<PstlAdr><Ctry>^ch</Ctry></PstlAdr>"],
        &[],
        57,
    ),
    (
        [BAD; 3],
        &[("<Nm>Mr Debiteur N2", "<Nm>^Mr_Debiteur N2")],
        52,
    ),
    (
        ["<PstlAdr><Ctry>^ch</Ctry></PstlAdr>", "", ""],
        &[("GB29", "GB28")],
        57,
    ),
    (
        ["", "<PstlAdr><TwnNm>^</TwnNm></PstlAdr>", ""],
        &[("GB29", "GB28")],
        51,
    ),
    (
        ["", "", "<PstlAdr><TwnNm></TwnNm></PstlAdr>"],
        &[("GB29", "^GB28")],
        58,
    ),
    ([BAD, "", ""], &[("</Document>", "</Documen^>")], 2),
    (
        [BAD, "", "<PstlAdr><Ctry>CH</Ctry><^Dept>1</Dept></PstlAdr>"],
        &[],
        2,
    ),
    ([COUNTRY, "", "<PstlAdr></PstlAdr^ >"], &[], 2),
];

/// Lengths of the tables, all too short for two transactions or one batch, but for the last.
pub const TABLES: [((usize, usize), Three, u32); 8] = [
    ((0, 0), [BAD_HERE, "", ""], 59),
    ((0, 0), ["", "", BAD_HERE], 59),
    ((0, 8), ["", BAD_HERE, ""], 59),
    ((23, 8), [BAD_HERE, "", ""], 59),
    ((24, 0), ["", EMPTY_HERE, ""], 59),
    ((24, 7), ["", "", BAD_HERE], 59),
    ((23, 7), [BAD_HERE, BAD, BAD], 59),
    ((24, 8), [STRUCTURED, HYBRID, COUNTRY], 0),
];
