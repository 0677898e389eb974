//! The table of refusals 51 to 58, written out from the papers: every text, in a message and in a
//! day list, with every kind of fault and its number. `text_cases` makes messages and lists of it.

/// The numbers of the wrong texts that every text is tried with: the empty one, one a byte too
/// long, one with a letter outside the set, ones with a slash at the start, with a slash at the
/// end and with two inside. 0: such a text is allowed.
type Numbers = [u32; 6];

const IDENTIFIER: Numbers = [51, 51, 52, 53, 53, 53];
const PLAIN: Numbers = [51, 51, 52, 0, 0, 0];
const NUMBER: Numbers = [54; 6];
const DATE: Numbers = [55; 6];
const CODE: Numbers = [56; 6];
const SHAPE: Numbers = [57; 6];

/// Texts of one rule: a good one, a longest one as a part and how often it stands there, the
/// numbers of the wrong ones, and texts with faults of the rule's own.
pub struct Kind {
    good: &'static str,
    longest: (&'static str, usize),
    numbers: Numbers,
    own: &'static [(&'static str, u32)],
}

const ID: Kind = Kind {
    good: "RUN-2026/07",
    longest: ("a", 35),
    numbers: IDENTIFIER,
    own: &[("/", 53), ("/A/", 53), ("A///B", 53), ("A&B", 52)],
};
const NAME: Kind = Kind {
    good: "O'Neil Testing",
    longest: ("a", 70),
    numbers: PLAIN,
    own: &[("O&apos;Neil", 52), ("A\nB", 52), ("//", 0), (" ", 0)],
};
const REMITTANCE: Kind = Kind {
    good: "Facture N1",
    longest: ("a", 140),
    numbers: PLAIN,
    own: &[("A\tB", 52), ("]]>", 52), ("/", 0), (" ", 0)],
};
const COUNT: Kind = Kind {
    good: "1",
    longest: ("0", 15),
    numbers: NUMBER,
    own: &[("1.0", 54), ("+1", 54), (" 1", 54), ("1e0", 54)],
};
const SUM: Kind = Kind {
    good: "3250.15",
    longest: ("999999999999999.99", 1),
    numbers: NUMBER,
    own: &[
        ("3250.150", 54),
        ("1000000000000000", 54),
        ("1.", 54),
        (".5", 54),
        ("1,5", 54),
        ("0", 0),
    ],
};
const AMOUNT: Kind = Kind {
    good: "1100.07",
    longest: ("999999999.99", 1),
    numbers: NUMBER,
    own: &[
        ("0.00", 54),
        ("0", 54),
        ("1000000000", 54),
        ("1.", 54),
        (".5", 54),
        ("-1", 54),
    ],
};
const DAY: Kind = Kind {
    good: "2026-11-10",
    longest: ("2026-11-10", 1),
    numbers: DATE,
    own: &[
        ("1900-02-29", 55),
        ("2026-11-31", 55),
        ("1899-12-31", 55),
        ("2100-01-01", 55),
        ("2026-2-1", 55),
        ("2026-11-10T00:00:00", 55),
        ("2000-02-29", 0),
    ],
};
const TIME: Kind = Kind {
    good: "2026-11-02T09:30:00",
    longest: ("2026-11-02T09:30:00", 1),
    numbers: DATE,
    own: &[
        ("2026-11-02T24:00:00", 55),
        ("2026-11-02T23:60:00", 55),
        ("2026-11-02T23:59:60", 55),
        ("2026-02-29T09:30:00", 55),
        ("2026-11-02", 55),
    ],
};
const IBAN: Kind = Kind {
    good: "BE68539007547034",
    longest: ("MT17ABCDEFGHIJKLMNOPQRSTUVWXYZ1234", 1),
    numbers: SHAPE,
    own: &[
        ("gb29NWBK60161331926819", 57),
        ("gb28NWBK60161331926819", 57),
        ("BE54", 57),
        ("GB28NWBK60161331926819", 58),
        ("FR7610041010050500013M02606", 58),
    ],
};
const BIC: Kind = Kind {
    good: "BANKGB2L",
    longest: ("BANKGB2LXXX", 1),
    numbers: SHAPE,
    own: &[
        ("NOTPROVIDED", 57),
        ("BANKGB2LX", 57),
        ("bankgb2l", 57),
        ("NOTPROVIDEX", 0),
    ],
};
const CREDITOR_ID: Kind = Kind {
    good: "BE69000050D000000008",
    longest: ("BE71ZZZ0123456789012345678901234567", 1),
    numbers: SHAPE,
    own: &[
        ("BE54ZZZ", 57),
        ("be27ZZZ1", 57),
        ("BE2AZZZ1", 57),
        ("FR00zzz123456", 57),
        ("FR00ZZZ123456", 58),
        ("BE73ZZZ123456789012", 58),
        ("BE11ZZZ73123456789012", 58),
        ("BE11ZZZ123456789", 58),
        ("BE78000050D000000008", 58),
        ("FR20ZZZ123456", 58),
        ("FR58ZZZ123456", 58),
        ("DE98ZZZ09999999999", 0),
        ("DE01ZZZ09999999999", 0),
        ("BE00ZZZ2", 0),
        ("BE99ZZZ63", 0),
        ("BE120010456810810", 0),
        ("FR72ZZZ123456", 0),
        ("FR72A9Z123456", 0),
    ],
};

const STREET: Kind = Kind {
    good: "Rue de l'Eglise",
    longest: ("a", 70),
    numbers: PLAIN,
    own: &[
        ("N\u{b0} 4", 52),
        ("Rue\nBasse", 52),
        ("Rue de l'Eglise_Saint-Pierre-en-Bas", 52),
        ("/", 0),
        ("A", 0),
    ],
};
const BUILDING: Kind = Kind {
    good: "12 bis",
    longest: ("1", 16),
    numbers: PLAIN,
    own: &[("12;14", 52), ("12_14", 52), (" ", 0), ("1", 0)],
};
const POST_CODE: Kind = Kind {
    good: "SW1A 2AA",
    longest: ("9", 16),
    numbers: PLAIN,
    own: &[("1207*", 52), ("1207\t", 52), ("//", 0), ("1", 0)],
};
const TOWN: Kind = Kind {
    good: "Chatel-St-Denis",
    longest: ("a", 35),
    numbers: PLAIN,
    own: &[
        ("Gen\u{e8}ve", 52),
        ("Bern@", 52),
        ("Villars_sur_Ollon_et_Gryon", 52),
        ("/", 0),
        ("A", 0),
    ],
};
const LINE: Kind = Kind {
    good: "c/o Leak Labs Bureau",
    longest: ("a", 70),
    numbers: PLAIN,
    own: &[("P&amp;O", 52), ("A\r\nB", 52), (" ", 0), ("A", 0)],
};
const COUNTRY: Kind = Kind {
    good: "CH",
    longest: ("GB", 1),
    numbers: SHAPE,
    own: &[
        ("C", 57),
        ("ch", 57),
        ("Ch", 57),
        ("cH", 57),
        ("C1", 57),
        ("1C", 57),
        ("41", 57),
        ("CHE", 57),
        ("756", 57),
        ("C ", 57),
        (" CH", 57),
        ("A[", 57),
        ("@Z", 57),
        ("AZ", 0),
        ("ZA", 0),
    ],
};

const fn code(good: &'static str, own: &'static [(&'static str, u32)]) -> Kind {
    Kind {
        good,
        longest: (good, 1),
        numbers: CODE,
        own,
    }
}

const NO_BANK: Kind = code(
    "NOTPROVIDED",
    &[("NOTPROVIDEX", 56), ("notprovided", 56), ("BANKGB2L", 56)],
);

/// Every text of the tree, by the names that lead to it.
pub const TEXTS: [(&str, Kind); 43] = [
    ("GrpHdr MsgId", ID),
    ("GrpHdr CreDtTm", TIME),
    ("GrpHdr NbOfTxs", COUNT),
    ("GrpHdr CtrlSum", SUM),
    ("GrpHdr InitgPty Nm", NAME),
    ("PmtInf PmtInfId", ID),
    ("PmtInf PmtMtd", code("DD", &[("TRF", 56), ("dd", 56)])),
    (
        "PmtInf BtchBookg",
        code("true", &[("TRUE", 56), ("1", 56), ("false", 0)]),
    ),
    ("PmtInf NbOfTxs", COUNT),
    ("PmtInf CtrlSum", SUM),
    ("PmtInf PmtTpInf SvcLvl Cd", code("SEPA", &[("URGP", 56)])),
    (
        "PmtInf PmtTpInf LclInstrm Cd",
        code("CORE", &[("COR1", 56), ("B2B ", 56), ("B2B", 0)]),
    ),
    (
        "PmtInf PmtTpInf SeqTp",
        code(
            "RCUR",
            &[("RPRE", 56), ("FRST", 0), ("OOFF", 0), ("FNAL", 0)],
        ),
    ),
    ("PmtInf ReqdColltnDt", DAY),
    ("PmtInf Cdtr Nm", NAME),
    ("PmtInf Cdtr PstlAdr StrtNm", STREET),
    ("PmtInf Cdtr PstlAdr BldgNb", BUILDING),
    ("PmtInf Cdtr PstlAdr PstCd", POST_CODE),
    ("PmtInf Cdtr PstlAdr TwnNm", TOWN),
    ("PmtInf Cdtr PstlAdr Ctry", COUNTRY),
    ("PmtInf Cdtr PstlAdr AdrLine", LINE),
    ("PmtInf CdtrAcct Id IBAN", IBAN),
    ("PmtInf CdtrAgt FinInstnId BICFI", BIC),
    ("PmtInf CdtrAgt FinInstnId Othr Id", NO_BANK),
    ("PmtInf ChrgBr", code("SLEV", &[("SHAR", 56)])),
    ("PmtInf CdtrSchmeId Id PrvtId Othr Id", CREDITOR_ID),
    (
        "PmtInf CdtrSchmeId Id PrvtId Othr SchmeNm Prtry",
        code("SEPA", &[("CORE", 56)]),
    ),
    ("PmtInf DrctDbtTxInf PmtId InstrId", ID),
    ("PmtInf DrctDbtTxInf PmtId EndToEndId", ID),
    ("PmtInf DrctDbtTxInf InstdAmt", AMOUNT),
    ("PmtInf DrctDbtTxInf DrctDbtTx MndtRltdInf MndtId", ID),
    ("PmtInf DrctDbtTxInf DrctDbtTx MndtRltdInf DtOfSgntr", DAY),
    ("PmtInf DrctDbtTxInf DbtrAgt FinInstnId BICFI", BIC),
    ("PmtInf DrctDbtTxInf DbtrAgt FinInstnId Othr Id", NO_BANK),
    ("PmtInf DrctDbtTxInf Dbtr Nm", NAME),
    ("PmtInf DrctDbtTxInf Dbtr PstlAdr StrtNm", STREET),
    ("PmtInf DrctDbtTxInf Dbtr PstlAdr BldgNb", BUILDING),
    ("PmtInf DrctDbtTxInf Dbtr PstlAdr PstCd", POST_CODE),
    ("PmtInf DrctDbtTxInf Dbtr PstlAdr TwnNm", TOWN),
    ("PmtInf DrctDbtTxInf Dbtr PstlAdr Ctry", COUNTRY),
    ("PmtInf DrctDbtTxInf Dbtr PstlAdr AdrLine", LINE),
    ("PmtInf DrctDbtTxInf DbtrAcct Id IBAN", IBAN),
    ("PmtInf DrctDbtTxInf RmtInf Ustrd", REMITTANCE),
];

/// Every text of a day list, by the line where it is tried and its field. `true`: length 0 is
/// allowed.
pub const FIELDS: [(usize, usize, Kind, bool); 15] = [
    (1, 1, ID, false),
    (1, 2, TIME, false),
    (1, 3, NAME, false),
    (1, 4, NAME, false),
    (1, 5, IBAN, false),
    (1, 6, BIC, true),
    (1, 7, CREDITOR_ID, false),
    (3, 4, DAY, false),
    (3, 5, ID, false),
    (3, 6, ID, false),
    (3, 7, DAY, false),
    (3, 8, BIC, true),
    (3, 9, NAME, false),
    (3, 10, IBAN, false),
    (3, 11, REMITTANCE, true),
];

/// Digits of line 2 of the vectors' list: kind, scheme and sequence; the cents.
const HEAD: &str = "020001";
const CENTS: &str = "000001ADB7";

/// Values of the fields of a collection that are no texts: the digits of line 2 that others take
/// the place of, those others, the field and its number.
pub const VALUES: [(&str, &str, usize, u32); 11] = [
    (HEAD, "020101", 1, 0),
    (HEAD, "020201", 1, 56),
    (HEAD, "02FF01", 1, 56),
    (HEAD, "020003", 2, 0),
    (HEAD, "020004", 2, 56),
    (HEAD, "0200FF", 2, 56),
    (CENTS, "0000000000", 3, 54),
    (CENTS, "0000000001", 3, 0),
    (CENTS, "174876E7FF", 3, 0),
    (CENTS, "174876E800", 3, 54),
    (CENTS, "FFFFFFFFFF", 3, 54),
];

/// The number of each field of the vectors' list, line by line, when it is spoiled: a text of
/// three bytes outside the letter set, a code that is none, no cents.
pub const SPOILED: [&[u32]; 3] = [
    &[52, 55, 52, 52, 57, 57, 57],
    &[56, 56, 54, 55, 52, 52, 55, 57, 52, 57, 52],
    &[56, 56, 54, 55, 52, 52, 55, 57, 52, 57, 52],
];

impl Kind {
    /// The texts to try, with their numbers.
    pub fn texts(&self) -> Vec<(Vec<u8>, u32)> {
        let good = self.good.as_bytes();
        let (before, after) = good.split_at(good.len() / 2);
        let longest = self.longest.0.repeat(self.longest.1).into_bytes();
        let wrong = [
            Vec::new(),
            [&longest[..], b"0"].concat(),
            [before, b"\xFC", &after[1..]].concat(),
            [b"/", good].concat(),
            [good, b"/"].concat(),
            [before, b"//", after].concat(),
        ];
        let own = self.own.iter();
        wrong
            .into_iter()
            .zip(self.numbers)
            .chain(own.map(|(text, number)| (text.as_bytes().to_vec(), *number)))
            .chain([(good.to_vec(), 0), (longest, 0)])
            .collect()
    }
}
