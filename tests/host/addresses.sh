# Addresses: the mixes of their parts (59), their texts, their form.

# An address of these parts: S street, B building number, P post code, T town, C country, L line.
address() { # PARTS
    local parts='' i
    for ((i = 0; i < ${#1}; i++)); do
        case ${1:i:1} in
            S) parts=$parts'<StrtNm>Rosenbergstrasse</StrtNm>' ;;
            B) parts=$parts'<BldgNb>20a</BldgNb>' ;;
            P) parts=$parts'<PstCd>9000</PstCd>' ;;
            T) parts=$parts'<TwnNm>St. Gallen</TwnNm>' ;;
            C) parts=$parts'<Ctry>CH</Ctry>' ;;
            L) parts=$parts'<AdrLine>Gate 2</AdrLine>' ;;
        esac
    done
    printf '<PstlAdr>%s</PstlAdr>' "$parts"
}
# The message of the examples with this after the name of the creditor or of the second debtor, and with this collection date.
message() { # NAME XML DATE
    local message
    message=$(< examples/day.xml)
    message=${message/2026-11-10/"$3"}
    printf '%s\n' "${message/"$1</Nm>"/"$1</Nm>$2"}"
}
creditor="O'Neil Testing" debtor='Mr Debiteur N2' early=2026-11-14 late=2026-11-15

# All mixes of the parts, with no line, one and two, a file each. Accepted are those with town and country, and up to 14 November
# those with country or lines alone; every other has its own line of 59.
mixes=$(echo mix-{,S}{,B}{,P}{,T}{,C}{,L,LL})
always='TC TCL TCLL PTC PTCL PTCLL BTC BTCL BTCLL BPTC BPTCL BPTCLL STC STCL STCLL SPTC SPTCL SPTCLL SBTC SBTCL SBTCLL SBPTC SBPTCL SBPTCLL'
mkdir "$made/mixes"
every() { # NAME PLACE
    local mix date good
    for mix in $mixes; do message "$1" "$(address "$mix")" $early > "$made/mixes/$mix"; done
    for date in 1900-01-01 2025-12-31 2026-10-31 $early $late 2026-12-01 2027-01-01 2099-12-31; do
        if [[ $date < $late ]]; then good="L LL C CL CLL $always"; else good=$always; fi
        expect "cd \$made/mixes && sed -i 's/<ReqdColltnDt>[^<]*/<ReqdColltnDt>$date/' * && desk check * | sed '/: B /d'" 0 \
            "$(cd "$made/mixes" && for mix in *; do [[ " $good " == *" ${mix#mix-} "* ]] && echo "$mix: OK 1 2 325015" || echo "$mix: NO 59 $2"; done)"
    done
}
every "$creditor" 594
every "$debtor" 1622
rm -r "$made/mixes"

# The explanation of a mix, of a debtor and of a creditor; and that what it says to mend is good, mix by mix.
mix() { # PARTS DATE HAS KIND MEND GOOD..
    local parts=$1 date=$2 good kind=${4:+"$4
"}
    message "$debtor" "$(address "$parts")" "$date" > "$made/a.xml"
    message "$creditor" "$(address "$parts")" "$date" > "$made/b.xml"
    said="It has: $3.
${kind}To mend: $5"
    expect 'desk check --explain $made/a.xml | sed -n "1p; 5,\$p"' 0 "NO 59 1622
Address: that of the debtor of transaction 2, EndToEndId \"FEE 2\", Nm \"Mr Debiteur N2\".
$said"
    expect 'desk check --explain $made/b.xml | sed -n "1p; 5,\$p"' 0 "NO 59 594
Address: that of the creditor of batch 1, PmtInfId \"B001\", Nm \"O'Neil Testing\".
$said"
    shift 5
    for good in "$@"; do
        message "$debtor" "${good:+$(address "$good")}" "$date" > "$made/a.xml"
        message "$creditor" "${good:+$(address "$good")}" "$date" > "$made/b.xml"
        expect 'desk check --quiet $made/a.xml $made/b.xml' 0 ''
    done
    rm "$made/a.xml" "$made/b.xml"
}
structured='Nearest kind: structured, which has town and country, and no line.'
hybrid='Nearest kind: hybrid, which has town, country and line.'
unstructured='unstructured, which is good only before 2026-11-15; the collection date of batch 1 is'
for date in $early $late; do
    mix '' "$date" 'nothing' '' 'Take PstlAdr out, or add TwnNm and Ctry at least.' '' TC
    mix T "$date" 'town (TwnNm)' "$structured" 'Add Ctry.' TC
    mix SBPT "$date" 'street (StrtNm), number (BldgNb), post code (PstCd), town (TwnNm)' "$structured" 'Add Ctry.' SBPTC
    mix TL "$date" 'town (TwnNm), one line (AdrLine)' "$hybrid" 'Add Ctry, and do not repeat it in AdrLine.' TCL
    mix STLL "$date" 'street (StrtNm), town (TwnNm), two lines (AdrLine)' "$hybrid" 'Add Ctry, and do not repeat it in AdrLine.' STCLL
    mix S "$date" 'street (StrtNm)' "$structured" 'Add TwnNm and Ctry.' STC
    mix B "$date" 'number (BldgNb)' "$structured" 'Add TwnNm and Ctry.' BTC
    mix P "$date" 'post code (PstCd)' "$structured" 'Add TwnNm and Ctry.' PTC
    mix SBP "$date" 'street (StrtNm), number (BldgNb), post code (PstCd)' "$structured" 'Add TwnNm and Ctry.' SBPTC
done
# before 15 November what is too much for an unstructured address may be taken out
mix SC $early 'street (StrtNm), country (Ctry)' "$structured" "Add TwnNm. Or take out StrtNm: then it is $unstructured 2026-11-14." STC C
mix BPC $early 'number (BldgNb), post code (PstCd), country (Ctry)' "$structured" "Add TwnNm. Or take out BldgNb and PstCd: then it is $unstructured 2026-11-14." BPTC C
mix SL $early 'street (StrtNm), one line (AdrLine)' "$hybrid" "Add TwnNm and Ctry, and do not repeat them in AdrLine. Or take out StrtNm: then it is $unstructured 2026-11-14." STCL L
mix SBPLL $early 'street (StrtNm), number (BldgNb), post code (PstCd), two lines (AdrLine)' "$hybrid" \
    "Add TwnNm and Ctry, and do not repeat them in AdrLine. Or take out StrtNm, BldgNb and PstCd: then it is $unstructured 2026-11-14." SBPTCLL LL
mix PCL $early 'post code (PstCd), country (Ctry), one line (AdrLine)' "$hybrid" "Add TwnNm, and do not repeat it in AdrLine. Or take out PstCd: then it is $unstructured 2026-11-14." PTCL CL
# from then on it may not: an unstructured address is refused too
mix SC $late 'street (StrtNm), country (Ctry)' "$structured" 'Add TwnNm.' STC
mix BL $late 'number (BldgNb), one line (AdrLine)' "$hybrid" 'Add TwnNm and Ctry, and do not repeat them in AdrLine.' BTCL
mix SPCLL $late 'street (StrtNm), post code (PstCd), country (Ctry), two lines (AdrLine)' "$hybrid" 'Add TwnNm, and do not repeat it in AdrLine.' SPTCLL
mix C $late 'country (Ctry)' "Its kind: $unstructured 2026-11-15." 'Add TwnNm.' TC
mix L $late 'one line (AdrLine)' "Its kind: $unstructured 2026-11-15." 'Add TwnNm and Ctry, and do not repeat them in AdrLine.' TCL
mix LL 2027-01-04 'two lines (AdrLine)' "Its kind: $unstructured 2027-01-04." 'Add TwnNm and Ctry, and do not repeat them in AdrLine.' TCLL
mix CL 2099-12-31 'country (Ctry), one line (AdrLine)' "Its kind: $unstructured 2099-12-31." 'Add TwnNm, and do not repeat it in AdrLine.' TCL

# Two batches: the date is that of its own batch, and the first such address of the message answers.
batches() { # SED LINES
    expect "sed '$1' examples/printed.xml | desk check --explain - | sed -n '1p; 4,5p; 7p'" 0 "$2"
}
country='<PstlAdr><Ctry>CH<\/Ctry><\/PstlAdr>'
batches "s/Testing<.Nm>/&$country/g; s/2026-11-10/2026-11-15/" "NO 59 568
Element: Document/CstmrDrctDbtInitn/PmtInf/Cdtr, batch 1.
Address: that of the creditor of batch 1, PmtInfId \"B001\", Nm \"O'Neil Testing\".
Its kind: $unstructured 2026-11-15."
batches "s/Testing<.Nm>/&$country/g; s/<PmtInfId>B001/<PmtInfId>B002/2; s/2026-11-10/2026-11-15/2" "NO 59 1973
Element: Document/CstmrDrctDbtInitn/PmtInf/Cdtr, batch 2.
Address: that of the creditor of batch 2, PmtInfId \"B002\", Nm \"O'Neil Testing\".
Its kind: ${unstructured/batch 1/batch 2} 2026-11-15."
batches "s/Debiteur N.<.Nm>/&$country/g; s/2026-11-10/2026-11-15/2" "NO 59 2601
Element: Document/CstmrDrctDbtInitn/PmtInf/DrctDbtTxInf/Dbtr, batch 2, transaction 3 of the message.
Address: that of the debtor of transaction 3, EndToEndId \"FEE 1\", Nm \"Mr Debiteur N1\".
Its kind: ${unstructured/batch 1/batch 2} 2026-11-15."
batches "s/Debiteur N2<.Nm>/&$country/; s/2026-11-10/2026-11-15/" "NO 59 1596
Element: Document/CstmrDrctDbtInitn/PmtInf/DrctDbtTxInf/Dbtr, batch 1, transaction 2 of the message.
Address: that of the debtor of transaction 2, EndToEndId \"FEE 2\", Nm \"Mr Debiteur N2\".
Its kind: $unstructured 2026-11-15."
expect "sed 's/Testing<.Nm>/&$country/g; s/Debiteur N.<.Nm>/&$country/g' examples/printed.xml | desk check - | head -n 1" 0 'OK 2 3 653015'
expect "sed 's/Testing<.Nm>/&$country/g; s/Debiteur N.<.Nm>/&$country/g; s/2026-11-10/2026-11-15/g' examples/printed.xml | desk check -" 1 'NO 59 568'
expect "sed 's/Debiteur N.<.Nm>/&$country/g; s/2026-11-10/2026-11-15/g' examples/printed.xml | desk check -" 1 'NO 59 1165'
# texts come before, also those after the address; totals come after; white space around the parts means nothing
expect "sed 's/Testing<.Nm>/&<PstlAdr><\/PstlAdr>/; s/Facture N1/Facture_N1/' examples/day.xml | desk check -" 1 'NO 52 1297'
expect "sed 's/Testing<.Nm>/&<PstlAdr><StrtNm>\&<\/StrtNm><\/PstlAdr>/' examples/day.xml | desk check -" 1 'NO 52 611'
expect "sed 's/N2<.Nm>/&<PstlAdr><\/PstlAdr>/; s/<NbOfTxs>2/<NbOfTxs>3/g; s/3250.15/1/g' examples/day.xml | desk check -" 1 'NO 59 1610'
expect "sed 's/N2<.Nm>/& <PstlAdr>\t\r<\/PstlAdr>\n/' examples/day.xml | desk check -" 1 'NO 59 1623'
expect "sed 's/N2<.Nm>/&\n<PstlAdr>\n<TwnNm>Bern<\/TwnNm> <Ctry>CH<\/Ctry>\t<\/PstlAdr>\n/' examples/day.xml | desk check --quiet -" 0 ''
# in lines: the place, its line and column; as JSON
expect "sed 's/N2<.Nm>/&\n <PstlAdr><\/PstlAdr>/' examples/day.xml | desk check --json -" 1 \
    '{"file":"-","status":1,"number":59,"place":1624,"means":"An address is neither structured nor hybrid, nor unstructured with a collection date before 2026-11-15.","line":2,"column":2}'
expect "sed '/<Ctry>GB/d' examples/addresses.xml | desk check --json --explain - | grep -o '\"explanation.*' | tr ',' '\n' | tail -n 1" 0 ' and do not repeat it in AdrLine."]}'
# a long name and a long identifier are shown cut
long=$(printf %070d 0)
expect "sed 's/Mr Debiteur N2<.Nm>/$long<\/Nm><PstlAdr><\/PstlAdr>/; s/FEE 2/${long:35}/' examples/day.xml | desk check --explain - | sed -n 5p" 0 \
    "Address: that of the debtor of transaction 2, EndToEndId \"${long:35}\", Nm \"${long:10}\" .. (70 bytes)."

# The texts: a hybrid address of a debtor with one part changed. Number, sentence and rule.
text() { # NUMBER ELEMENT TEXT SENTENCE RULE
    expect "sed 's|N2<.Nm>|&$(address SBPTCL)|; s|<$2>[^<]*|<$2>$3|' examples/day.xml | desk check --explain - | sed -n '1s/ [0-9]*\$//p; 4,5p; 8p'" 0 "NO $1
Element: Document/CstmrDrctDbtInitn/PmtInf/DrctDbtTxInf/Dbtr/PstlAdr/$2, batch 1, transaction 2 of the message.
$4
Its rule: $5."
}
fits() { # ELEMENT TEXT
    expect "sed 's|N2<.Nm>|&$(address SBPTCLL)|; s|<$1>[^<]*|<$1>$2|g' examples/day.xml | desk check --quiet -" 0 ''
}
letters="of a-z A-Z 0-9 / - ? : ( ) . , ' + and space"
for part in StrtNm:70 BldgNb:16 PstCd:16 TwnNm:35 AdrLine:70; do
    name=${part%:*} most=${part#*:}
    text 51 "$name" "" 'It is empty.' "1 to $most characters $letters"
    text 51 "$name" "0${long:70 - most}" "It has $((most + 1)) characters; at most $most are allowed." "1 to $most characters $letters"
    text 51 "$name" "_${long:70 - most}/" "It has $((most + 2)) characters; at most $most are allowed." "1 to $most characters $letters"
    text 51 "$name" "${long:71 - most}\\xc3\\xbc" "It has $((most + 1)) bytes; at most $most are allowed." "1 to $most characters $letters"
    text 52 "$name" "${long:71 - most}_" "Character $most is \"_\", which is not in the letter set." "1 to $most characters $letters"
    text 52 "$name" 'Z\xc3\xbcr' 'Character 2 is "ü" (bytes C3 BC), which is not in the letter set.' "1 to $most characters $letters"
    fits "$name" "${long:70 - most}"
    fits "$name" '//'
    fits "$name" 'a+?:(.,)'
done
text 57 Ctry '' 'It is empty; a country, as CH, has at least 2 characters.' 'two capital letters, as CH'
text 57 Ctry C 'It ends after 1 character; a country, as CH, has at least 2.' 'two capital letters, as CH'
text 57 Ctry CHE 'It has 3 characters; a country, as CH, has at most 2.' 'two capital letters, as CH'
text 57 Ctry ch 'Character 1 is "c"; a capital letter must stand there.' 'two capital letters, as CH'
text 57 Ctry Ch 'Character 2 is "h"; a capital letter must stand there.' 'two capital letters, as CH'
text 57 Ctry C1 'Character 2 is "1"; a capital letter must stand there.' 'two capital letters, as CH'
text 57 Ctry ' CH' 'Character 1 is " "; a country, as CH, has no spaces.' 'two capital letters, as CH'
text 57 Ctry '\xc3\x84B' 'Character 1 is "Ä" (bytes C3 84); a capital letter must stand there.' 'two capital letters, as CH'
fits Ctry ZZ
# an empty text of an address may be left out, any other not
out='It need not stand in an address: where there is nothing to fill in, take the element out.'
expect "sed 's|N2<.Nm>|&$(address SBPTCL)|; s|<PstCd>9000|<PstCd>|' examples/day.xml | desk check --explain - | sed -n '9,\$p'" 0 "$out
To mend: Fill it in, or shorten it."
expect "sed 's|N2<.Nm>|&$(address SBPTCL)|; s|<Ctry>CH|<Ctry>|' examples/day.xml | desk check --explain - | sed -n 9p" 0 "$out"
expect "sed 's|N2<.Nm>|&$(address SBPTCL)|; s|<PstCd>9000|<PstCd>_|' examples/day.xml | desk check --explain - | sed -n 9p" 0 'To mend: Write it with letters of the set, which has none with an accent, no & and no _.'
expect "sed 's|Mr Debiteur N2||' examples/day.xml | desk check --explain - | sed -n 9p" 0 'To mend: Fill it in, or shorten it.'

# The form: what stands after the name of the second debtor, where it is refused, and what may stand there.
form() { # XML BYTES MAY [NOT]: the place is so many bytes after the name; NOT where it is not in PstlAdr
    message "$debtor" "$1" $early > "$made/a.xml"
    expect 'desk check --explain $made/a.xml | grep -E "^(NO|There may|PstlAdr may)"' 0 "NO 2 $((1622 + $2))
There may stand: $3.${4-
PstlAdr may have, in this order: StrtNm, BldgNb, PstCd, TwnNm, Ctry, AdrLine, AdrLine.}"
    rm "$made/a.xml"
}
form '<PstlAdr>Gate 2</PstlAdr>' 9 '<StrtNm> or <BldgNb> or <PstCd> or <TwnNm> or <Ctry> or <AdrLine> or </PstlAdr>'
form '<PstlAdr><AdrTp>' 13 '<StrtNm> or <BldgNb> or <PstCd> or <TwnNm> or <Ctry> or <AdrLine> or </PstlAdr>'
form '<PstlAdr><StrtName>' 15 '<StrtNm> or <BldgNb> or <PstCd> or <TwnNm> or <Ctry> or <AdrLine> or </PstlAdr>'
form '<PstlAdr><StrtNm>a</StrtNm><StrtNm>' 28 '<BldgNb> or <PstCd> or <TwnNm> or <Ctry> or <AdrLine> or </PstlAdr>'
form '<PstlAdr><BldgNb>a</BldgNb><BldgNm>' 28 '<PstCd> or <TwnNm> or <Ctry> or <AdrLine> or </PstlAdr>'
form '<PstlAdr><PstCd>a</PstCd><BldgNb>' 26 '<TwnNm> or <Ctry> or <AdrLine> or </PstlAdr>'
form '<PstlAdr><TwnNm>a</TwnNm><PstCd>' 26 '<Ctry> or <AdrLine> or </PstlAdr>'
form '<PstlAdr><Ctry>CH</Ctry><CtrySubDvsn>' 25 '<AdrLine> or </PstlAdr>'
form '<PstlAdr><AdrLine>a</AdrLine><Ctry>' 30 '<AdrLine> or </PstlAdr>'
form '<PstlAdr><AdrLine>a</AdrLine><AdrLine>b</AdrLine><AdrLine>' 50 '</PstlAdr>'
form '<PstlAdr><TwnNm/>' 15 '<StrtNm> or <BldgNb> or <PstCd> or <TwnNm> or <Ctry> or <AdrLine> or </PstlAdr>'
form '<PstlAdr><TwnNm>a</TwnNM>' 23 '</TwnNm>' ''
form '<PstlAdr/>' 8 '<PstlAdr> or </Dbtr>' ''
form '<PstlAdr >' 8 '<PstlAdr> or </Dbtr>' ''
form '<PstAdr>' 4 '<PstlAdr> or </Dbtr>' ''
form '<PstlAdr></PstlAdr><PstlAdr>' 20 '</Dbtr>' ''
form '<PstlAdr></PstlAdr><Nm>' 20 '</Dbtr>' ''
form '<Ctry>CH</Ctry>' 1 '<PstlAdr> or </Dbtr>' ''
expect "sed 's/<Nm>Mr/<PstlAdr><\/PstlAdr>&/' examples/day.xml | desk check --explain - | sed -n '1p; 7p'" 0 'NO 2 1169
There may stand: <Nm>.'
expect "sed 's/Bureau<.Nm>/&<PstlAdr><\/PstlAdr>/' examples/day.xml | desk check --explain - | sed -n '1p; 7p'" 0 'NO 2 276
There may stand: </InitgPty>.'
expect "sed 's/Testing<.Nm>/&<AdrLine>/' examples/day.xml | desk check --explain - | sed -n '1p; 7p'" 0 'NO 2 595
There may stand: <PstlAdr> or </Cdtr>.'
# cut off in an address
expect "head -c 1700 examples/addresses.xml | desk check --explain - | sed -n '1,2p; 4p; 7,9p'" 0 'NO 2 1700
The file is cut off: it ends before the message does.
Element: Document/CstmrDrctDbtInitn/PmtInf/DrctDbtTxInf/Dbtr/PstlAdr, batch 1, transaction 1 of the message.
So far: 0 whole transactions, 0.00 EUR; one more is begun and not whole.
The header declares 4 transactions and 4210.65 EUR.
Missing: 4 transactions, 4210.65 EUR.'

# help and manual page name the number and the kinds
expect 'desk --help | tr -s " \n" " " | grep -o "59: [^.]*\."' 0 '59: an address is neither structured nor hybrid, nor, before 2026-11-15, unstructured.'
expect 'sed -n "/^Number 59/,/^Numbers 6/p" host/desk.1 | grep -o -E "^(structured|hybrid|unstructured) |before 2026.*"' 0 'structured 
hybrid 
unstructured 
before 2026\-11\-15'
unset creditor debtor early late mixes always name date said structured hybrid unstructured country long letters part most out
unset -f address message every mix batches text fits form
