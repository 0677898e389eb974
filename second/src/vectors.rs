//! The day list and the written message that the numbers of the self-test and of the table are
//! about: one creditor, two collections of the same terms.

use crate::daylist::DayList;
use crate::frames;

/// Three lines, each ended by LF.
pub const LIST: &str = concat!(
    "010B52554E2D323032362F303713323032362D31312D30325430393A33303A3030104C65616B204C",
    "616273204275726561750E4F274E65696C2054657374696E67104245363835333930303735343730",
    "3334084242525542454242144245363930303030353044303030303030303038\n",
    "020001000001ADB70A323032362D31312D3130054645452031074D2D35353535350A323030392D30",
    "392D3031000E4D72204465626974657572204E3116474232394E57424B3630313631333331393236",
    "3831390A46616374757265204E31\n",
    "02000100000347E00A323032362D31312D3130054645452032094D2D3636362F3636360A31393839",
    "2D30372D30330842414E4B4742324C0E4D72204465626974657572204E3210424533303030313231",
    "3633373134313100\n",
);

/// The message for that list at a ceiling of 2 or more, 1,743 bytes.
pub const MESSAGE: &str = concat!(
    r#"<?xml version="1.0" encoding="UTF-8"?>"#,
    r#"<Document xmlns="urn:iso:std:iso:20022:tech:xsd:pain.008.001.08"><CstmrDrctDbtInitn>"#,
    "<GrpHdr><MsgId>RUN-2026/07</MsgId><CreDtTm>2026-11-02T09:30:00</CreDtTm><NbOfTxs>2",
    "</NbOfTxs><CtrlSum>3250.15</CtrlSum><InitgPty><Nm>Leak Labs Bureau</Nm></InitgPty>",
    "</GrpHdr><PmtInf><PmtInfId>B001</PmtInfId><PmtMtd>DD</PmtMtd><BtchBookg>true",
    "</BtchBookg><NbOfTxs>2</NbOfTxs><CtrlSum>3250.15</CtrlSum><PmtTpInf><SvcLvl><Cd>SEPA",
    "</Cd></SvcLvl><LclInstrm><Cd>CORE</Cd></LclInstrm><SeqTp>RCUR</SeqTp></PmtTpInf>",
    "<ReqdColltnDt>2026-11-10</ReqdColltnDt><Cdtr><Nm>O'Neil Testing</Nm></Cdtr>",
    "<CdtrAcct><Id><IBAN>BE68539007547034</IBAN></Id></CdtrAcct><CdtrAgt><FinInstnId>",
    "<BICFI>BBRUBEBB</BICFI></FinInstnId></CdtrAgt><ChrgBr>SLEV</ChrgBr><CdtrSchmeId><Id>",
    "<PrvtId><Othr><Id>BE69000050D000000008</Id><SchmeNm><Prtry>SEPA</Prtry></SchmeNm>",
    "</Othr></PrvtId></Id></CdtrSchmeId><DrctDbtTxInf><PmtId><EndToEndId>FEE 1",
    r#"</EndToEndId></PmtId><InstdAmt Ccy="EUR">1100.07</InstdAmt><DrctDbtTx><MndtRltdInf>"#,
    "<MndtId>M-55555</MndtId><DtOfSgntr>2009-09-01</DtOfSgntr></MndtRltdInf></DrctDbtTx>",
    "<DbtrAgt><FinInstnId><Othr><Id>NOTPROVIDED</Id></Othr></FinInstnId></DbtrAgt><Dbtr>",
    "<Nm>Mr Debiteur N1</Nm></Dbtr><DbtrAcct><Id><IBAN>GB29NWBK60161331926819</IBAN></Id>",
    "</DbtrAcct><RmtInf><Ustrd>Facture N1</Ustrd></RmtInf></DrctDbtTxInf><DrctDbtTxInf>",
    r#"<PmtId><EndToEndId>FEE 2</EndToEndId></PmtId><InstdAmt Ccy="EUR">2150.08</InstdAmt>"#,
    "<DrctDbtTx><MndtRltdInf><MndtId>M-666/666</MndtId><DtOfSgntr>1989-07-03</DtOfSgntr>",
    "</MndtRltdInf></DrctDbtTx><DbtrAgt><FinInstnId><BICFI>BANKGB2L</BICFI></FinInstnId>",
    "</DbtrAgt><Dbtr><Nm>Mr Debiteur N2</Nm></Dbtr><DbtrAcct><Id><IBAN>BE30001216371411",
    "</IBAN></Id></DbtrAcct></DrctDbtTxInf></PmtInf></CstmrDrctDbtInitn></Document>",
);

/// The message with the first find of a text exchanged.
pub fn with(from: &str, to: &str) -> String {
    assert!(MESSAGE.contains(from), "the message has no {from}");
    MESSAGE.replacen(from, to, 1)
}

/// The message with bytes in place of the first find of a text, and that place.
pub fn with_bytes(from: &str, to: &[u8]) -> (Vec<u8>, usize) {
    let place = MESSAGE.find(from).expect("the message has the text");
    let (before, after) = (&MESSAGE[..place], &MESSAGE[place + from.len()..]);
    ([before.as_bytes(), to, after.as_bytes()].concat(), place)
}

pub fn day_list() -> DayList {
    DayList::read(LIST.as_bytes()).expect("the vectors are a good list")
}

/// The list with another text in a field, counted as in a refusal.
pub fn list_with_text(line: usize, field: usize, text: &[u8]) -> Vec<u8> {
    let mut list = day_list();
    match line {
        1 => list.creditor.texts[field - 1] = text.to_vec(),
        _ => list.collections[line - 2].texts[field - 4] = text.to_vec(),
    }
    frames::list(&list.creditor, &list.collections)
}
