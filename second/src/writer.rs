//! The writer: refusals 21, 22, 27 and 28, and the written message by formatting.

use crate::answer::{refuse, Refusal};
use crate::bundle::bundle;
use crate::daylist::{Collection, Creditor, DayList};
use crate::profile::{
    BATCH_LIMIT, CEILING_LIMIT, DECLARATION, DOCUMENT, MESSAGE_LIMIT, NOT_PROVIDED, SCHEMES,
    SEQUENCES,
};

/// The message for a day list and a ceiling, if it fits into `room` bytes.
pub fn write(list: &[u8], ceiling: u64, room: usize) -> Result<String, Refusal> {
    if list.len() > MESSAGE_LIMIT {
        return refuse(21, 0);
    }
    if !(1..=CEILING_LIMIT).contains(&ceiling) {
        return refuse(22, 0);
    }
    let list = DayList::read(list)?;
    let batches = bundle(&terms(&list), ceiling as usize);
    if batches.len() > BATCH_LIMIT {
        return refuse(27, batches.len());
    }
    let message = message(&list, &batches);
    if message.len() > room {
        return refuse(28, message.len());
    }
    Ok(message)
}

/// Scheme, sequence and collection date of each collection.
fn terms(list: &DayList) -> Vec<(u8, u8, &[u8])> {
    let collections = list.collections.iter();
    collections
        .map(|c| (c.scheme, c.sequence, &c.texts[0][..]))
        .collect()
}

fn message(list: &DayList, batches: &[Vec<usize>]) -> String {
    let collections: Vec<&Collection> = list.collections.iter().collect();
    let mut message = format!(
        "{DECLARATION}{DOCUMENT}<CstmrDrctDbtInitn>{}",
        header(&list.creditor, &collections)
    );
    for (batch, number) in batches.iter().zip(1..) {
        let collections: Vec<&Collection> = batch.iter().map(|&i| &list.collections[i]).collect();
        message += &written_batch(number, &list.creditor, &collections);
    }
    message + "</CstmrDrctDbtInitn></Document>"
}

fn header(creditor: &Creditor, collections: &[&Collection]) -> String {
    let [message_id, creation_time, initiating_name, ..] = readable(&creditor.texts);
    format!(
        "<GrpHdr><MsgId>{message_id}</MsgId><CreDtTm>{creation_time}</CreDtTm>{}\
         <InitgPty><Nm>{initiating_name}</Nm></InitgPty></GrpHdr>",
        totals(collections)
    )
}

fn totals(collections: &[&Collection]) -> String {
    let cents = collections.iter().map(|collection| collection.cents).sum();
    format!(
        "<NbOfTxs>{}</NbOfTxs><CtrlSum>{}</CtrlSum>",
        collections.len(),
        euros(cents)
    )
}

fn euros(cents: u64) -> String {
    format!("{}.{:02}", cents / 100, cents % 100)
}

fn bank(bic: &str) -> String {
    match bic {
        "" => format!("<FinInstnId><Othr><Id>{NOT_PROVIDED}</Id></Othr></FinInstnId>"),
        _ => format!("<FinInstnId><BICFI>{bic}</BICFI></FinInstnId>"),
    }
}

fn written_batch(number: usize, creditor: &Creditor, collections: &[&Collection]) -> String {
    let [.., name, iban, bic, creditor_id] = readable(&creditor.texts);
    let first = collections[0];
    let [date, ..] = readable(&first.texts);
    let transactions: String = collections.iter().map(|c| transaction(c)).collect();
    format!(
        "<PmtInf><PmtInfId>B{number:03}</PmtInfId><PmtMtd>DD</PmtMtd><BtchBookg>true</BtchBookg>\
         {totals}<PmtTpInf><SvcLvl><Cd>SEPA</Cd></SvcLvl><LclInstrm><Cd>{scheme}</Cd></LclInstrm>\
         <SeqTp>{sequence}</SeqTp></PmtTpInf><ReqdColltnDt>{date}</ReqdColltnDt>\
         <Cdtr><Nm>{name}</Nm></Cdtr><CdtrAcct><Id><IBAN>{iban}</IBAN></Id></CdtrAcct>\
         <CdtrAgt>{bank}</CdtrAgt><ChrgBr>SLEV</ChrgBr>\
         <CdtrSchmeId><Id><PrvtId><Othr><Id>{creditor_id}</Id>\
         <SchmeNm><Prtry>SEPA</Prtry></SchmeNm></Othr></PrvtId></Id></CdtrSchmeId>\
         {transactions}</PmtInf>",
        totals = totals(collections),
        scheme = SCHEMES[usize::from(first.scheme)],
        sequence = SEQUENCES[usize::from(first.sequence)],
        bank = bank(bic),
    )
}

fn transaction(collection: &Collection) -> String {
    let texts = readable(&collection.texts);
    let [_, end_to_end_id, mandate_id, signature_date, bic, name, iban, remittance] = texts;
    let remittance = match remittance {
        "" => String::new(),
        _ => format!("<RmtInf><Ustrd>{remittance}</Ustrd></RmtInf>"),
    };
    format!(
        "<DrctDbtTxInf><PmtId><EndToEndId>{end_to_end_id}</EndToEndId></PmtId>\
         <InstdAmt Ccy=\"EUR\">{amount}</InstdAmt><DrctDbtTx><MndtRltdInf>\
         <MndtId>{mandate_id}</MndtId><DtOfSgntr>{signature_date}</DtOfSgntr></MndtRltdInf>\
         </DrctDbtTx><DbtrAgt>{bank}</DbtrAgt><Dbtr><Nm>{name}</Nm></Dbtr>\
         <DbtrAcct><Id><IBAN>{iban}</IBAN></Id></DbtrAcct>{remittance}</DrctDbtTxInf>",
        amount = euros(collection.cents),
        bank = bank(bic),
    )
}

/// The texts of a frame as strings: every text rule allows ASCII only.
fn readable<const N: usize>(texts: &[Vec<u8>; N]) -> [&str; N] {
    texts
        .each_ref()
        .map(|text| std::str::from_utf8(text).unwrap())
}
