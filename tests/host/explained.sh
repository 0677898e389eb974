# Explanations that docs/NUMBERS.md does not show: the sentence for each way in which a text can break its rule, and the hints.

# The number and the sentence of a text: the message of the examples with one text changed.
sentence() { # NUMBER FROM TO SENTENCE
    expect "sed 's|$2|$3|' examples/day.xml | desk check --explain - | sed -n '1s/ [0-9]*\$//p; 5p'" 0 "NO $1
$4"
}
sentence 51 '>FEE 1<' '><' 'It is empty.'
sentence 51 'FEE 1' '012345678901234567890123456789012345' 'It has 36 characters; at most 35 are allowed.'
sentence 51 'FEE 1' '01234567890123456789012345678901234\xc3\xab' 'It has 37 bytes; at most 35 are allowed.'
sentence 53 'FEE 1' '/A' 'It begins with a slash.'
sentence 53 'FEE 1' 'A/' 'It ends with a slash.'
sentence 53 'FEE 1' 'A//B' 'It has two slashes in a row.'
sentence 52 'O.Neil' 'Zo\xc3\xab' 'Character 3 is "ë" (bytes C3 AB), which is not in the letter set.'
sentence 52 'O.Neil' 'Zo\xeb' 'Character 3 is "\xeb", which is not in the letter set.'
sentence 52 'O.Neil' 'Zo\x09' 'Character 3 is "\x09", which is not in the letter set.'
sentence 54 'xs>2<' 'xs>2.0<' 'Character 2 is "."; only digits are allowed.'
sentence 54 'xs>2<' 'xs>0000000000000002<' 'It has 16 digits; at most 15 are allowed.'
sentence 54 '1100.07' '1100,07' 'Character 5 is ","; the decimal mark is a point.'
sentence 54 '1100.07' '1 100.07' 'Character 2 is " "; only digits and one point are allowed.'
sentence 54 '1100.07' '-1' 'Character 1 is "-"; it must begin with a digit.'
sentence 54 '1100.07' '.5' 'Character 1 is "."; it must begin with a digit.'
sentence 54 '1100.07' '1.' 'It has 0 digits after the point; one or two are allowed.'
sentence 54 '1100.07' '1.001' 'It has 3 digits after the point; one or two are allowed.'
sentence 54 '1100.07' '1.0.0' 'Character 4 is "."; after the point only one or two digits are allowed.'
sentence 54 '1100.07' '1000000000' 'It has 10 digits before the point; at most 9 are allowed.'
sentence 54 '1100.07' '0.00' 'It is worth 0; the least is 0.01.'
sentence 54 '1100.07' '0' 'It is worth 0; the least is 0.01.'
sentence 55 '2026-11-10' '10/11/2026' 'Character 3 is "/"; a digit must stand there.'
sentence 55 '2026-11-10' '2026/11/10' 'Character 5 is "/"; "-" must stand there.'
sentence 55 '2026-11-10' '2026-11' 'It ends after 7 characters; a date, as 2026-11-10, has at least 10.'
sentence 55 '2026-11-10' '2026-11-10Z' 'It has 11 characters; a date, as 2026-11-10, has at most 10.'
sentence 55 '2026-11-10' '1899-11-10' 'The year is 1899; years go from 1900 to 2099.'
sentence 55 '2026-11-10' '2026-13-10' 'The month is 13; months go from 01 to 12.'
sentence 55 '2026-11-10' '2026-11-31' 'The day is 31; November 2026 has the days 01 to 30.'
sentence 55 '2026-11-10' '1900-02-29' 'The day is 29; February 1900 has the days 01 to 28.'
sentence 55 '2026-11-10' '2000-02-30' 'The day is 30; February 2000 has the days 01 to 29.'
sentence 55 'T09:30:00' 'T24:00:00' 'The hour is 24; the highest is 23.'
sentence 55 'T09:30:00' 'T09:60:00' 'The minute is 60; the highest is 59.'
sentence 55 'T09:30:00' 'T09:30:60' 'The second is 60; the highest is 59.'
sentence 55 'T09:30:00' ' 09:30:00' 'Character 11 is " "; a time, as 2026-11-10T09:30:00, has no spaces.'
sentence 55 'T09:30:00' 'T09:30:00Z' 'It has 20 characters; a time, as 2026-11-10T09:30:00, has at most 19.'
sentence 56 'RCUR' 'rcur' 'It is no code that may stand there; capitals and small letters differ, and spaces count.'
sentence 57 'BE68539007547034' 'BE68 5390 0754 7034' 'Character 5 is " "; an IBAN has no spaces.'
sentence 57 'BE68539007547034' 'be68539007547034' 'Character 1 is "b"; a capital letter must stand there.'
sentence 57 'BE68539007547034' 'BE68' 'It ends after 4 characters; an IBAN has at least 5.'
sentence 57 'BE68539007547034' 'BE68539007547034539007547034539007547034' 'It has 40 characters; an IBAN has at most 34.'
# document 01: FR7610041010050500013M02606 leaves 6
sentence 58 'BE68539007547034' 'FR7610041010050500013M02606' 'The check digits do not fit: the number leaves 6 on division by 97, and must leave 1. A digit or letter is likely mistyped.'
sentence 57 'BBRUBEBB' 'BBRUBEB' 'It ends after 7 characters; a BIC has at least 8.'
sentence 57 'BBRUBEBB' 'BBRUBEBB1' 'It has 9 characters; a BIC has 8 or 11.'
sentence 57 'BBRUBEBB' 'BBRU1EBB' 'Character 5 is "1"; a capital letter must stand there.'
sentence 57 'BBRUBEBB' 'NOTPROVIDED' 'NOTPROVIDED is no BIC. A message says Othr, Id and NOTPROVIDED in the place of BICFI; a list leaves the BIC empty.'
sentence 57 'BE69000050D000000008' 'BE69000' 'It ends after 7 characters; a creditor identifier has at least 8.'
sentence 57 'BE69000050D000000008' 'BE69000050d000000008' 'Character 11 is "d"; a capital letter or a digit must stand there.'
# empty texts of the other kinds
sentence 54 'xs>2<' 'xs><' 'It is empty.'
sentence 55 '>2026-11-10<' '><' 'It is empty; a date, as 2026-11-10, has at least 10 characters.'
sentence 56 '>RCUR<' '><' 'It is empty.'
sentence 57 '>BE68539007547034<' '><' 'It is empty; an IBAN has at least 5 characters.'
sentence 57 '>BBRUBEBB<' '><' 'It is empty; a BIC has at least 8 characters.'
sentence 57 '>BE69000050D000000008<' '><' 'It is empty; a creditor identifier has at least 8 characters.'

# Of a text that fails several tests the first is answered and explained: length, letters, slashes; shape, check digits.
long=$(printf %069d 0)
sentence 51 'Mr Debiteur N1' "_$long/" 'It has 71 characters; at most 70 are allowed.'
sentence 52 'Mr Debiteur N1' "$long\\xfc" 'Character 70 is "\xfc", which is not in the letter set.'
sentence 51 'Facture N1' "\\&$long$long//" 'It has 141 characters; at most 140 are allowed.'
sentence 51 'FEE 1' "/${long:36}_/" 'It has 36 characters; at most 35 are allowed.'
sentence 52 'FEE 1' "/${long:36}_" 'Character 35 is "_", which is not in the letter set.'
sentence 53 'FEE 1' "/${long:35}" 'It begins with a slash.'
sentence 57 'BE68539007547034' 'be6853900754703' 'Character 1 is "b"; a capital letter must stand there.'
sentence 57 'BE69000050D000000008' 'FR00ZZZ' 'It ends after 7 characters; a creditor identifier has at least 8.'
sentence 57 'BE69000050D000000008' 'FR00ZZz123456' 'Character 7 is "z"; a capital letter or a digit must stand there.'
sentence 57 'BE69000050D000000008' 'FR 00ZZZ123456' 'Character 3 is " "; a creditor identifier has no spaces.'
sentence 57 'BE69000050D000000008' "FR00ZZZ${long:40}" 'It has 36 characters; a creditor identifier has at most 35.'
# slashes of a name are good; a bank's code is one, not a shape; a text comes before the totals
expect "sed 's|Mr Debiteur N1|//N1/|' examples/day.xml | desk check --quiet -" 0 ''
sentence 56 'NOTPROVIDED' 'NOTPROVIDEX' 'It is no code that may stand there; capitals and small letters differ, and spaces count.'
expect "sed 's/BE30/BE31/; s/<NbOfTxs>2/<NbOfTxs>3/' examples/day.xml | desk check -" 1 'NO 58 1649'
expect "sed 's/BE69/BE78/; s/<NbOfTxs>2/<NbOfTxs>3/' examples/day.xml | desk check -" 1 'NO 58 783'
# of several such texts the first in the message
expect "sed 's/FEE 1/FEE_1/; s/RCUR/rcur/; s/BE30/BE31/' examples/day.xml | desk check -" 1 'NO 56 503'
expect "sed 's/FEE 1/FEE_1/; s/BE69/BE78/; s/BE30/BE31/' examples/day.xml | desk check -" 1 'NO 58 783'
expect "sed 's/BBRUBEBB/bbrubebb/; s/BE69/BE78/' examples/day.xml | desk check -" 1 'NO 57 688'

# What a number means, and what to mend.
words() { # NUMBER FROM TO MEANS MEND
    expect "sed 's|$2|$3|' examples/day.xml | desk check --explain - | sed -n '1s/ [0-9]*\$//p; 2p; \$p'" 0 "NO $1
$4
To mend: $5"
}
words 51 '>FEE 1<' '><' 'A plain text (identifier, name, remittance, part of an address but the country) is empty or too long.' 'Fill it in, or shorten it.'
words 55 '2026-11-10' '1899-11-10' 'A date or a time is no real one of the years 1900 to 2099, or is not written as its rule says.' 'Write a real day of the years 1900 to 2099 as 2026-11-10, a time as 2026-11-10T09:30:00.'
shape='An IBAN, a BIC, a creditor identifier or a country is not as its rule says, or a BIC is NOTPROVIDED.'
mend='Write it as its rule says, without spaces. Take it from the document it was copied from; do not guess it. A BIC that is not known is left out.'
words 57 'BBRUBEBB' 'NOTPROVIDED' "$shape" "$mend"
words 57 'BE68539007547034' 'BE68' "$shape" "$mend"
fit='The check digits of an IBAN or a creditor identifier do not fit.'
compare='Compare it with the document it was copied from, character by character. Never change the check digits to make them fit.'
words 58 'BE30' 'BE31' "$fit" "$compare"
words 58 'BE69000050D000000008' 'FR00ZZZ123456' "$fit" "$compare"
unset shape mend fit compare
unset -f words
# --help and the manual page say that NOTPROVIDED as a BIC is 57
expect 'desk --help | tr -s " \n" " " | grep -o "57 [^,]*,"' 0 '57 shape (also NOTPROVIDED as a BIC),'
expect 'sed -n "/^57 /,/^58 /p" host/desk.1 | grep -c "a BIC is NOTPROVIDED"' 0 '1'
# the manual page says that 58 is also of creditor identifiers
expect 'sed -n "/^58 /,/^.fi/p" host/desk.1 | grep -c "an IBAN or a creditor identifier"' 0 '1'

# What a file is that is no message, and what to mend.
hint() { # COMMAND NAME MEND
    expect "$1 | desk check --explain - | sed -n '3p; \$p'" 0 "$2
To mend: $3"
}
hint '(printf "\xef\xbb\xbf"; cat examples/day.xml)' 'The file begins with a byte order mark (bytes EF BB BF).' 'Save it as UTF-8 without a byte order mark.'
hint "printf '\\xff\\xfe<\\0?\\0'" 'The file is UTF-16.' 'Save it as UTF-8 without a byte order mark.'
hint "printf '<\\0?\\0'" 'The file is UTF-16.' 'Save it as UTF-8 without a byte order mark.'
hint "printf 'PK\\003\\004'" 'The file is packed.' 'Unpack it first.'
hint 'cat examples/day.list' 'This looks like a day list.' '`desk write LIST --ceiling N` writes its message.'
hint 'tr A-F a-f < examples/day.list' 'This looks like a day list.' '`desk write LIST --ceiling N` writes its message.'
hint 'cat examples/day.csv' 'This looks like a CSV.' '`desk list CSV -o LIST` makes a day list of it.'
hint "(head -c 900 examples/day.xml; head -c 100 /dev/zero)" 'From here on the file has zero bytes: it was not written whole.' 'Fetch it again.'
hint "sed 's/<PmtInf>/<!-- x --><PmtInf>/' examples/day.xml" 'A comment stands there; the profile has none.' 'Take it out.'
hint "sed 's/<BtchBookg>true<.BtchBookg>/<BtchBookg\\/>/' examples/day.xml" 'An empty-element tag stands there; the profile has none.' 'Write the opening tag, the content and the closing tag; or take the element out, where it may be missing.'

# A file that is cut off: in the header, in an amount, in white space.
expect "head -c 190 examples/day.xml | desk check --explain - | tail -n +6" 0 '                                                     ^
So far: 0 whole transactions, 0.00 EUR.
What the header declares does not stand there.
To mend: Fetch the file again, whole. Never close the tags by hand: what is missing would not be collected.'
expect "head -c 960 examples/day.xml | desk check --explain - | sed -n 7,9p" 0 'So far: 0 whole transactions, 0.00 EUR; one more is begun and not whole.
The header declares 2 transactions and 3250.15 EUR.
Missing: 2 transactions, 3250.15 EUR.'
expect "printf ' \n' | desk check --explain -" 1 'NO 2 2
The file is empty.
To mend: Fetch it again.'

# The namespace of another message; what may stand there, in message order.
expect "sed 's/008.001.08/001.001.09/' examples/day.xml | desk check --explain - | sed -n 8p" 0 'The namespace is that of "pain.001.001.09", a credit transfer; the desk reads pain.008.001.08.'
expect "sed 's/008.001.08/053.001.08/; s/pain/camt/' examples/day.xml | desk check --explain - | sed -n 8p" 0 'The namespace is that of "camt.053.001.08", a statement or report of an account; the desk reads pain.008.001.08.'
expect "sed 's/<BtchBookg>/<Btch>/' examples/day.xml | desk check --explain - | sed -n 7p" 0 'There may stand: <BtchBookg> or <NbOfTxs> or <CtrlSum> or <PmtTpInf>.'
expect "sed 's/<RmtInf>/<Rmt>/' examples/day.xml | desk check --explain - | sed -n 7p" 0 'There may stand: <RmtInf> or </DrctDbtTxInf>.'

# A value of a list: line 1, 2 or 3 of the example with one text changed; number, line and field, and the sentence with the field's name.
text() { printf '%02X%s' "$(printf %b "$1" | wc -c)" "$(printf %b "$1" | od -An -v -tx1 | tr -d ' \n' | tr a-f A-F)"; } # TEXT
value() { # NUMBER LINE FIELD FROM TO SENTENCE
    expect "sed '$2s/$(text "$4")/$(text "$5")/' examples/day.list | desk write --ceiling 2 --explain - 2>&1 | sed -n '1p; 4p'" 0 "NO $1 $2 $3
Field $3, $6"
}
value 53 1 1 'RUN-2026/07' '/a' 'message id: It begins with a slash.'
value 51 1 1 'RUN-2026/07' "/${long:36}_/" 'message id: It has 36 characters; at most 35 are allowed.'
value 55 1 2 '2026-11-02T09:30:00' '2026-11-02T09:30' 'creation time: It ends after 16 characters; a time, as 2026-11-10T09:30:00, has at least 19.'
value 51 1 3 'Leak Labs Bureau' '' 'initiating name: It is empty.'
value 52 1 4 "O'Neil Testing" 'Zo\xc3\xab' 'creditor name: Character 3 is "ë" (bytes C3 AB), which is not in the letter set.'
value 57 1 5 BE68539007547034 'BE68 5390 0754 7034' 'creditor IBAN: Character 5 is " "; an IBAN has no spaces.'
value 58 1 5 BE68539007547034 FR7610041010050500013M02606 'creditor IBAN: The check digits do not fit: the number leaves 6 on division by 97, and must leave 1. A digit or letter is likely mistyped.'
value 57 1 6 BBRUBEBB NOTPROVIDED 'creditor BIC: NOTPROVIDED is no BIC. A message says Othr, Id and NOTPROVIDED in the place of BICFI; a list leaves the BIC empty.'
value 57 1 7 BE69000050D000000008 '' 'creditor identifier: It is empty; a creditor identifier has at least 8 characters.'
value 57 1 7 BE69000050D000000008 FR00ZZZ12345a 'creditor identifier: Character 13 is "a"; a capital letter or a digit must stand there.'
value 55 2 4 2026-11-10 '' 'collection date: It is empty; a date, as 2026-11-10, has at least 10 characters.'
value 55 2 4 2026-11-10 2026-02-30 'collection date: The day is 30; February 2026 has the days 01 to 28.'
value 52 2 5 'FEE 1' "/${long:36}_" 'end-to-end id: Character 35 is "_", which is not in the letter set.'
value 53 3 6 'M-666/666' 'M-666/' 'mandate id: It ends with a slash.'
value 55 3 7 1989-07-03 1889-07-03 'signature date: The year is 1889; years go from 1900 to 2099.'
value 57 3 8 BANKGB2L NOTPROVIDED 'debtor BIC: NOTPROVIDED is no BIC. A message says Othr, Id and NOTPROVIDED in the place of BICFI; a list leaves the BIC empty.'
value 51 2 9 'Mr Debiteur N1' "_$long/" 'debtor name: It has 71 characters; at most 70 are allowed.'
value 57 3 10 BE30001216371411 '' 'debtor IBAN: It is empty; an IBAN has at least 5 characters.'
value 58 3 10 BE30001216371411 BE31001216371411 'debtor IBAN: The check digits do not fit: the number leaves 2 on division by 97, and must leave 1. A digit or letter is likely mistyped.'
value 52 2 11 'Facture N1' 'Facture #1' 'remittance: Character 9 is "#", which is not in the letter set.'
# The check digits of a creditor identifier, in a message and in a list: what its number leaves without the business code, and what
# the check digits would have to be.
dead() { # IDENTIFIER LEAVES RIGHT
    fit="The check digits of the creditor identifier do not fit: without the business code (characters 5 to 7) the number leaves $2 on division by 97, and must leave 1."
    fit="$fit With the rest as it stands they would have to be $3. A digit or letter is likely mistyped."
    sentence 58 BE69000050D000000008 "$1" "$fit"
    value 58 1 7 BE69000050D000000008 "$1" "creditor identifier: $fit"
    good "${1:0:2}$3${1:4}"
}
good() { # IDENTIFIER
    expect "sed 's/BE69000050D000000008/$1/' examples/day.xml | desk check - | head -n 1" 0 'OK 1 2 325015'
    expect "sed '1s/$(text BE69000050D000000008)/$(text "$1")/' examples/day.list | desk write --quiet --ceiling 2 - | cmp - <(sed 's/BE69000050D000000008/$1/' examples/day.xml)" 0 ''
}
# identifiers that the papers print, good ones below; and two beside the first of them
dead FR00ZZZ123456 26 72
dead FR00ABC123456 26 72
dead FR73ZZZ123456 2 72
dead BE73ZZZ123456789012 21 53
dead BE11ZZZ73123456789012 54 55
dead BE11ZZZ123456789 41 68
dead BE78000050D000000008 10 69
# the lowest and the highest check digits; the shortest identifier and the longest
dead FR00ZZZ71 96 02
dead FR00ZZZ89 0 98
dead BE00ZZZ9 93 05
dead ZZ00ZZZZZZZZZZZZZZZZZZZZZZZZZZZZZZZ 87 11
good DE98ZZZ09999999999
good DE980A909999999999
good BE120010456810810
# the remainder alone decides, as of an IBAN
good FR00ZZZ10
unset fit
unset -f dead good
# in the second batch, with its rule
expect "sed 's/BE69000050D000000008/FR00ZZZ123456/2' examples/printed.xml | desk check --explain - | sed -n '1p; 4p; 8p'" 0 'NO 58 2128
Element: Document/CstmrDrctDbtInitn/PmtInf/CdtrSchmeId/Id/PrvtId/Othr/Id, batch 2.
Its rule: two capitals, two digits, three capitals or digits, then 1 to 28 capitals or digits, the check digits being right.'
# after another field of the line, and before another line
expect "sed '1s/42453638/42453639/; 1s/42453639303030/42453738303030/; 2s/^0200/0202/' examples/day.list | desk write --ceiling 2 --explain - 2>&1 | grep -E '^(NO|Field|Also)'" 0 'NO 58 1 5
Field 5, creditor IBAN: The check digits do not fit: the number leaves 2 on division by 97, and must leave 1. A digit or letter is likely mistyped.
Also field 7, creditor identifier: The check digits of the creditor identifier do not fit: without the business code (characters 5 to 7) the number leaves 10 on division by 97, and must leave 1. With the rest as it stands they would have to be 69. A digit or letter is likely mistyped.'
# scheme, sequence and cents; document 01: cents 17 48 76 E7 FF are good, 17 48 76 E8 00 are not
digits() { # FROM TO NUMBER FIELD SENTENCE
    expect "sed '2s/$1/$2/' examples/day.list | desk write --ceiling 2 --explain - 2>&1 | sed -n '1p; 4p'" 0 "NO $3 2 $4
Field $4, $5"
}
digits ^020001 02FF04 56 1 'scheme: It is 255.'
digits ^020001 020104 56 2 'sequence: It is 4.'
digits 000001ADB7 0000000000 54 3 'amount: It is 0.00 EUR; the least is 0.01 EUR.'
digits 000001ADB7 174876E800 54 3 'amount: It is 1000000000.00 EUR; the most is 999999999.99 EUR.'
expect "sed '2s/000001ADB7/174876E7FF/' examples/day.list | desk write --ceiling 2 --quiet - | desk check - | head -n 1" 0 'OK 1 2 100000215007'
# the first line, and in it the first field; the other values of that line come after it, those of other lines do not
expect "sed '2s/$(text 'Mr Debiteur N1')/$(text Zo\\xc3\\xab)/; 2s/$(text 'FEE 1')/$(text /F_)/; 3s/^0200/0202/' examples/day.list | desk write --ceiling 2 --explain -" 1 'NO 52 2 5
A text has a letter that is not in the letter set.
Line 2: "020001000001ADB70A323032362D31312D3130032F465F074D2D35353535" .. (164 bytes).
Field 5, end-to-end id: Character 3 is "_", which is not in the letter set.
  Text: "/F_"
           ^
  Its rule: 1 to 35 characters of a-z A-Z 0-9 / - ? : ( ) . , '\'' + and space; no / at either end, no // inside.
To mend: Write it with letters of the set, which has none with an accent, no & and no _.
Also field 9, debtor name: Character 3 is "ë" (bytes C3 AB), which is not in the letter set.
  Text: "Zoë"
           ^
  Its rule: 1 to 70 characters of a-z A-Z 0-9 / - ? : ( ) . , '\'' + and space.
To mend: Write it with letters of the set, which has none with an accent, no & and no _.'
# every value of a creditor line is bad
expect "{ printf '01%s000000000000\n' $(text /a); sed 1d examples/day.list; } | desk write --ceiling 2 --explain - 2>&1 | grep -E '^(NO|Field|Also)'" 0 'NO 53 1 1
Field 1, message id: It begins with a slash.
Also field 2, creation time: It is empty; a time, as 2026-11-10T09:30:00, has at least 19 characters.
Also field 3, initiating name: It is empty.
Also field 4, creditor name: It is empty.
Also field 5, creditor IBAN: It is empty; an IBAN has at least 5 characters.
Also field 7, creditor identifier: It is empty; a creditor identifier has at least 8 characters.'
unset long
unset -f text value digits

# Lines of lists that are no frames.
reason() { # COMMAND LINES
    expect "$1 | desk write --ceiling 2 --explain - 2>&1 | sed -n '4,\$p'" 0 "$2"
}
reason 'tr A-F a-f < examples/day.list' 'Column 4 has "b": the digits A-F are capitals.
To mend: Correct that line. docs/FORMATS.md takes a line apart, byte by byte.'
reason "sed 's/\$/\r/' examples/day.list" 'Column 225 has "\x0d", a CR: a line ends in LF alone, not in CR LF.
To mend: Correct that line. docs/FORMATS.md takes a line apart, byte by byte.'
reason 'cat examples/day.xml' 'Line 1: "<?xml version="1.0" encoding="UTF-8"?><Document xmlns="urn:i" .. (1743 bytes).
Column 1 has "<", which is none of the digits 0-9 A-F.
To mend: `desk check FILE` checks it.'
reason "tail -n 2 examples/day.list" 'It begins with 02; a creditor line, as line 1 must be, begins with 01.
To mend: Correct that line. docs/FORMATS.md takes a line apart, byte by byte.'
reason "sed '2s/\$/00/' examples/day.list" 'After the last field, the remittance, it has 2 more digits.
To mend: Correct that line. docs/FORMATS.md takes a line apart, byte by byte.'
reason "head -c 590 examples/day.list" 'It lacks its LF: the list may be cut off.
To mend: Correct that line. docs/FORMATS.md takes a line apart, byte by byte.'
