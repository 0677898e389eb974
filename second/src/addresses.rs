//! Which mixes of elements are a good postal address: a table of all of them, each with the last
//! collection date at which it is good.

/// Last dates, as texts: every date of the profile is after the first, and none after the third.
const NEVER: &str = "";
const UNSTRUCTURED: &str = "2026-11-14";
const ALWAYS: &str = "2099-12-31";

/// Every mix, by the letters of what is in the address, and its last date. `d`: a detail, which
/// is a street, a number or a post code; `t`: a town; `c`: a country; `l`: a line.
const LAST_DATES: [(&str, &str); 16] = [
    ("", NEVER),
    ("d", NEVER),
    ("t", NEVER),
    ("c", UNSTRUCTURED),
    ("l", UNSTRUCTURED),
    ("dt", NEVER),
    ("dc", NEVER),
    ("dl", NEVER),
    ("tc", ALWAYS),
    ("tl", NEVER),
    ("cl", UNSTRUCTURED),
    ("dtc", ALWAYS),
    ("dtl", NEVER),
    ("dcl", NEVER),
    ("tcl", ALWAYS),
    ("dtcl", ALWAYS),
];

/// Whether an address of these elements, in the order of the tree, is good at a date.
pub fn good_at(date: &[u8], elements: &[&str]) -> bool {
    date <= last_date(&mix(elements)).as_bytes()
}

/// The letters of the elements, each once: in the order of the tree those alike are neighbours.
pub fn mix(elements: &[&str]) -> String {
    let mut letters: Vec<char> = elements.iter().map(|element| letter(element)).collect();
    letters.dedup();
    letters.into_iter().collect()
}

fn letter(element: &str) -> char {
    match element {
        "TwnNm" => 't',
        "Ctry" => 'c',
        "AdrLine" => 'l',
        _ => 'd',
    }
}

fn last_date(mix: &str) -> &'static str {
    let row = LAST_DATES.iter().find(|(known, _)| *known == mix);
    row.expect("the table has every mix").1
}
