# Day lists from CSV, and CSV from day lists.

# what a file is that is no CSV, in two lines
expect 'desk list examples/day.list' 1 'This looks like a day list.
To mend: `desk write LIST --ceiling N` writes its message.'
expect 'desk list examples/day.xml' 1 'This looks like a message.
To mend: `desk check FILE` checks it.'
expect "printf 'PK\\003\\004,,' | desk list -" 1 "This looks like a spreadsheet's own file, or a packed one.
To mend: Save the sheet as CSV in UTF-8, and give that file."
expect "printf '\\377\\376a\\0,\\0' | desk list -" 1 'The file is UTF-16.
To mend: Save it as UTF-8 without a byte order mark.'
# help and manual page name every field
head -n 1 examples/day.csv | tr , '\n' > "$made/names"
expect 'while IFS= read -r name; do desk --help | tr -s " \n" " " | grep -qF "$name" || echo "$name"; done < $made/names' 0 ''
expect 'while IFS= read -r name; do tr -s " \n" " " < host/desk.1 | grep -qF "$name" || echo "$name"; done < $made/names' 0 ''
rm "$made/names"
# quiet is quiet of what is wrong, too
expect 'desk list --quiet examples/day.csv | cmp - examples/day.list' 0 ''
expect 'head -n 1 examples/day.csv | desk list --quiet -' 1 ''
# the example, both ways, byte for byte; the list or the CSV to standard output, or to a file
expect 'desk list examples/day.csv 2> /dev/null | cmp - examples/day.list' 0 ''
expect 'desk list examples/day.csv > /dev/null' 0 'OK 2 325015'
expect 'desk list - < examples/day.csv 2> /dev/null | cmp - examples/day.list' 0 ''
expect 'desk list -o $made/day.list examples/day.csv && cmp $made/day.list examples/day.list' 0 'OK 2 325015'
expect 'desk show examples/day.list | cmp - examples/day.csv' 0 ''
expect 'desk show - -o $made/day.csv < examples/day.list && cmp $made/day.csv examples/day.csv' 0 ''
rm "$made/day.list" "$made/day.csv"

# Where each field of the record begins: scheme 1, sequence 6, amount 11, collection date 19, end-to-end id 30, mandate id 36, signature date 44, debtor BIC 55,
# debtor name 56, debtor IBAN 71, remittance 94; it ends at 104.
fields='scheme,sequence,amount,collection date,end-to-end id,mandate id,signature date,debtor BIC,debtor name,debtor IBAN,remittance'
record='CORE,RCUR,1100.07,2026-11-10,FEE 1,M-55555,2009-09-01,,Mr Debiteur N1,GB29NWBK60161331926819,Facture N1'
creditor_fields='message id,creation time,initiating name,creditor name,creditor IBAN,creditor BIC,creditor identifier'
creditor='--message-id=RUN-2026/07 --creation-time=2026-11-02T09:30:00 --initiating-name=Bureau --creditor-name=Lab'
creditor="$creditor --creditor-iban=BE68539007547034 --creditor-identifier=BE69000050D000000008"
# the sentences of tests/host/explained.sh, cut down to `..`
cut='s/\([")]\): [A-Z].*[.] Amounts/\1: .. Amounts/; /Amounts/!s/\([")]\): [A-Z].*[.]$/\1: ../'
export creditor cut
how=' Amounts are written as 3250.15: a point before the cents, nothing between thousands.'

# What is printed for a CSV, with the creditor given by options.
csv() { # CSV STATUS PRINTED
    printf '%s' "$1" > "$made/try.csv"
    expect 'set -o pipefail; desk list $creditor -o $made/try.list $made/try.csv | sed "$cut"' "$2" "$3"
    rm -f "$made/try.csv"
    [ "$2" = 0 ] || left ''
    rm -f "$made/try.list"
}
# The same for records under the header; and for one record in which a part is replaced, on line 2.
records() { csv "$fields"$'\n'"$1"$'\n' "$2" "$3"; }
swap() { records "${record/"$1"/"$2"}" 1 "$3"; } # PART BY PRINTED

# three collections by options, in another order of columns and of cases: made, written, checked, and shown
cat > "$made/three.csv" << 'END'
Debtor Name,DEBTOR IBAN,amount,Scheme,sequence,Collection Date,mandate ID,signature date,end-to-end id
Mr Debiteur N1,GB29NWBK60161331926819,5,CORE,FRST,2026-11-10,M-1,2009-09-01,FEE 1
"Debiteur, N2",BE30001216371411,5.5,B2B,OOFF,2026-11-10,M-2,2009-09-01,FEE 2
Mr N3 ,BE540,05.50,CORE,FRST,2026-11-10,M-3,2009-09-01, FEE 3
END
expect 'desk list $creditor -o $made/three.list $made/three.csv' 0 'OK 3 1600'
expect 'desk write --ceiling 100 $made/three.list -o $made/three.xml && desk check $made/three.xml' 0 'OK 2 3 1600
B 1 2 1050 2 1050
B 2 1 550 1 550
OK 2 3 1600
B 1 2 1050 2 1050
B 2 1 550 1 550'
expect 'desk show $made/three.list' 0 "$creditor_fields,$fields"'
RUN-2026/07,2026-11-02T09:30:00,Bureau,Lab,BE68539007547034,,BE69000050D000000008,,,,,,,,,,,
,,,,,,,CORE,FRST,5.00,2026-11-10,FEE 1,M-1,2009-09-01,,Mr Debiteur N1,GB29NWBK60161331926819,
,,,,,,,B2B,OOFF,5.50,2026-11-10,FEE 2,M-2,2009-09-01,,"Debiteur, N2",BE30001216371411,
,,,,,,,CORE,FRST,5.50,2026-11-10," FEE 3",M-3,2009-09-01,,"Mr N3 ",BE540,'
expect 'desk show $made/three.list | desk list - 2> /dev/null | cmp - $made/three.list' 0 ''
rm "$made"/three.*

# line ends, a byte order mark, semicolons, quotes: the same list
expect "sed 's/\$/\r/' examples/day.csv | desk list - 2> /dev/null | cmp - examples/day.list" 0 ''
expect "head -c -1 examples/day.csv | desk list - 2> /dev/null | cmp - examples/day.list" 0 ''
expect "{ printf '\357\273\277'; cat examples/day.csv; } | desk list - 2> /dev/null | cmp - examples/day.list" 0 ''
expect "tr , ';' < examples/day.csv | desk list - 2> /dev/null | cmp - examples/day.list" 0 ''
expect "sed 's/[^,]*/\"&\"/g' examples/day.csv | desk list - 2> /dev/null | cmp - examples/day.list" 0 ''
expect "sed 's/[^,]*/\"&\"/g; s/,/;/g; s/\$/\r/; 1s/message id/MESSAGE ID/' examples/day.csv | desk list - 2> /dev/null | cmp - examples/day.list" 0 ''
# a comma or a semicolon in quotes is no separator
semicolons=${record//,/;}
csv "${fields//,/;}"$'\n'"${semicolons/Mr Debiteur N1/\"A, B\"}" 0 'OK 1 110007'
csv "\"debtor;name\",$fields"$'\n'",$record" 1 'line 1, column 2: the field "debtor;name" is not known; check the spelling of its name.'
csv "\"debtor,name\";${fields//,/;}"$'\n'";$semicolons" 1 'line 1, column 2: the field "debtor,name" is not known; check the spelling of its name.'
# records whose fields are all empty, fewer or more than the header's, and empty fields after the last column
records $'\n,,,\n""\n'"$record"$'\n\r\n,,,,,,,,,,,,,,,,,,,\n'"$record,,\"\""$'\n' 0 'OK 2 220014'
csv $'\n,,\n'"$fields,,"$'\n'"$record"$'\n'"$record,,,," 0 'OK 2 220014'
# the longest amount and the lowest; zeros before it
records "${record/1100.07/999999999.99}
${record/1100.07/0.01}
${record/1100.07/0000000000000000000000001}" 0 'OK 3 100000000100'

# the creditor: by record and by options together; without a BIC; twice; not at all
both="message id,creditor name,$fields"
csv "$both"$'\n'"R1,Lab,,,,,,,,,,,"$'\n'",,$record" 1 'line 1, column 1: the message id has a column, and --message-id gives it too.
line 1, column 12: the creditor name has a column, and --creditor-name gives it too.'
printf '%s\n' "$both" 'R1,Lab,,,,,,,,,,,' ",,$record" > "$made/both.csv"
options=$(tr ' ' '\n' <<< "$creditor" | grep -v -e --message-id -e --creditor-name | tr '\n' ' ')
expect "desk list $options \$made/both.csv 2> /dev/null | desk show - | sed -n 2p" 0 'R1,2026-11-02T09:30:00,Bureau,Lab,BE68539007547034,,BE69000050D000000008,,,,,,,,,,,'
expect "desk list $options --creditor-bic BBRUBEBB \$made/both.csv 2> /dev/null | desk show - | sed -n 2p" 0 'R1,2026-11-02T09:30:00,Bureau,Lab,BE68539007547034,BBRUBEBB,BE69000050D000000008,,,,,,,,,,,'
rm "$made/both.csv"
expect "printf '%s\n' '$fields' '$record' | desk list -" 1 'line 1, column 1: the message id has no column, and --message-id is not given.
line 1, column 1: the creation time has no column, and --creation-time is not given.
line 1, column 1: the initiating name has no column, and --initiating-name is not given.
line 1, column 1: the creditor name has no column, and --creditor-name is not given.
line 1, column 1: the creditor IBAN has no column, and --creditor-iban is not given.
line 1, column 1: the creditor identifier has no column, and --creditor-identifier is not given.'
# the creditor's fields stand in the first record alone, and no others there
expect "sed '2s/,\$/,x/' examples/day.csv | desk list -" 1 'line 2, column 122: the remittance "x" stands in the first record, which has the creditor'\''s fields alone.'
expect "sed 2d examples/day.csv | desk list -" 1 'line 2, column 8: the scheme "CORE" stands in the first record, which has the creditor'\''s fields alone.'
expect "sed '3,4s/^,,,/,,A,B/' examples/day.csv | desk list -" 1 'line 3, column 3: the initiating name "A" stands in the record of a collection; the creditor'\''s fields stand in the first record alone.
line 4, column 3: the initiating name "A" stands in the record of a collection; the creditor'\''s fields stand in the first record alone.'

# the header
csv '' 1 'line 1, column 1: the header is missing; the first line must have the names of the fields.'
csv $'\n,,\n' 1 'line 1, column 1: the header is missing; the first line must have the names of the fields.'
csv "${fields/amount/amout}"$'\n'"$record" 1 'line 1, column 17: the field "amout" is not known; check the spelling of its name.
line 1, column 1: the amount has no column.'
csv "$fields,Scheme"$'\n'"$record,CORE" 1 'line 1, column 126: the scheme has two columns.'
csv "${fields/,amount/}"$'\n'"${record/,1100.07/}" 1 'line 1, column 1: the amount has no column.'
csv "${fields/amount/,amount}"$'\n'"${record/1100.07/,1100.07}" 1 'line 1, column 17: the field of this column has no name.'
csv "${fields/debtor BIC,/}"$'\n'"${record/,,/,}" 0 'OK 1 110007'
csv "$fields" 1 'NO 24 1
There is no collection: no record stands after the header.'
expect 'head -n 1 examples/day.csv | desk list -' 1 'NO 24 0
There is no creditor and no collection: no record stands after the header.'
expect 'head -n 2 examples/day.csv | desk list -' 1 "NO 24 1
There is no collection: no record stands after the creditor's."

# records
swap ',Mr' ',"Mr' 'line 2, column 56: the debtor name begins with a quote that is never closed; nothing after it is read.'
swap 'Debiteur' 'De"bi"teur' 'line 2, column 61: the debtor name has a quote inside; put it in quotes as a whole, and write each quote inside it twice.'
swap 'Mr Debiteur' '"Mr" Debiteur' 'line 2, column 60: the debtor name goes on after its closing quote; write each quote inside it twice.'
# a field that cannot be read is not judged any more; nor is a record that does not end
swap CORE 'CO"RE' 'line 2, column 3: the scheme has a quote inside; put it in quotes as a whole, and write each quote inside it twice.'
swap CORE '"CO"RE' 'line 2, column 5: the scheme goes on after its closing quote; write each quote inside it twice.'
swap CORE $'COR\310' 'line 2, column 4: the scheme has the byte C8, which is not UTF-8; save the file as UTF-8.'
records "${record/CORE/COR1}"$'\n'"COR1,\"$record" 1 'line 2, column 1: the scheme "COR1" must be CORE or B2B.
line 3, column 6: the sequence begins with a quote that is never closed; nothing after it is read.'
swap 'Mr Debiteur N1,GB29NWBK60161331926819,Facture N1' 'Mr Debiteur N1' "line 2, column 70: the debtor name ends the record; of the header's 11 fields it has 9."
swap 'Mr Debiteur' 'Mr,Debiteur' 'line 2, column 94: the field "Facture N1" stands after the last column; a text with a comma in it must stand in quotes.'
csv "${fields//,/;}"$'\n'"${semicolons/Mr /Mr;}" 1 'line 2, column 94: the field "Facture N1" stands after the last column; a text with a semicolon in it must stand in quotes.'
records "$record"$'\n\n,,,,,,,,,,,,note\n'"$record" 1 'line 4, column 13: the field "note" stands after the last column; a text with a comma in it must stand in quotes.'
csv $'\r' 1 'line 1, column 1: the field ends in CR alone; save the file with line ends CR LF or LF. Nothing after it is read.'
csv "$fields"$'\r'"$record"$'\r' 1 'line 1, column 125: the field ends in CR alone; save the file with line ends CR LF or LF. Nothing after it is read.'
swap 'Facture N1' $'Facture\rN1' 'line 2, column 101: the remittance ends in CR alone; save the file with line ends CR LF or LF. Nothing after it is read.'
# a line is a line of the file, also in quotes; a column is a character, and not a byte
records "${record/Facture N1/$'"Facture\r\n\nN1"'}"$'\n'"${record/CORE,RCUR/COR1,\"R\"}" 1 'line 5, column 1: the scheme "COR1" must be CORE or B2B.
line 5, column 7: the sequence "R" must be FRST, RCUR, OOFF or FNAL.'
swap 'Mr Debiteur' $'Zo\303\253 \342\202\254 D\351b' 'line 2, column 63: the debtor name has the byte E9, which is not UTF-8; save the file as UTF-8.'
swap 'Mr Debiteur' $'\355\240\200\300\257\303' 'line 2, column 56: the debtor name has the byte ED, which is not UTF-8; save the file as UTF-8.
line 2, column 57: the debtor name has the byte A0, which is not UTF-8; save the file as UTF-8.
line 2, column 58: the debtor name has the byte 80, which is not UTF-8; save the file as UTF-8.
line 2, column 59: the debtor name has the byte C0, which is not UTF-8; save the file as UTF-8.
line 2, column 60: the debtor name has the byte AF, which is not UTF-8; save the file as UTF-8.
line 2, column 61: the debtor name has the byte C3, which is not UTF-8; save the file as UTF-8.'

# words and numbers
swap CORE core 'line 2, column 1: the scheme "core" must be CORE or B2B.'
swap CORE 'CORE ' 'line 2, column 1: the scheme "CORE " must be CORE or B2B.'
swap RCUR '' 'line 2, column 6: the sequence "" must be FRST, RCUR, OOFF or FNAL.'
swap 1100.07 '' "line 2, column 11: the amount \"\": ..$how"
swap 1100.07 -5 "line 2, column 11: the amount \"-5\": ..$how"
swap 1100.07 .5 "line 2, column 11: the amount \".5\": ..$how"
swap 1100.07 5. "line 2, column 13: the amount \"5.\": ..$how"
swap 1100.07 5.125 "line 2, column 15: the amount \"5.125\": ..$how"
swap 1100.07 '12 EUR' "line 2, column 13: the amount \"12 EUR\": ..$how"
swap 1100.07 '"1100,07"' "line 2, column 16: the amount \"1100,07\": ..$how"
swap 1100.07 '"1,100.07"' "line 2, column 13: the amount \"1,100.07\": ..$how"
swap 1100.07 1.100.07 "line 2, column 16: the amount \"1.100.07\": ..$how"
swap 1100.07 "1'100.07" "line 2, column 12: the amount \"1'100.07\": ..$how"
# five bytes hold 10995116277.75
swap 1100.07 10995116277.76 "line 2, column 20: the amount \"10995116277.76\": ..$how"
swap 1100.07 99999999999999999999999999 "line 2, column 20: the amount \"99999999999999999999999999\": ..$how"
expect "printf '%s\n' '$fields' '${record/1100.07/10995116277.75}' '${record/1100.07/000}' | desk list \$creditor -" 1 'NO 54 2 3
line 2, column 11: the amount "10995116277.75": It is 10995116277.75 EUR; the most is 999999999.99 EUR.
line 3, column 11: the amount "000": It is 0.00 EUR; the least is 0.01 EUR.'
# a length byte holds 255
swap 'Facture N1' "$(printf %0256d 0)" 'line 2, column 94: the remittance has 256 bytes; a text of a day list has at most 255.'
swap 'Facture N1' "$(printf %0255d 0)" "NO 51 2 11
line 2, column 234: the remittance \"$(printf %060d 0)\" .. (255 bytes): .."
expect "printf '%s\n' '$fields' '$record' | desk list \$creditor --creditor-bic $(printf %0256d 0) -" 1 '--creditor-bic: the creditor BIC has 256 bytes; a text of a day list has at most 255.'

# values that break their rules: all of them, each at the byte at fault, with a word about letters
swap 'Mr Debiteur' 'Zoë Debiteur' 'NO 52 2 9
line 2, column 58: the debtor name "Zoë Debiteur N1": ..
No letter is changed: write the text with letters of the set.'
swap 'Mr Debiteur N1' '"Zoë, ""N1"""' 'NO 52 2 9
line 2, column 59: the debtor name "Zoë, "N1"": ..
No letter is changed: write the text with letters of the set.'
# the 71st character; a doubled quote before it is one character of the text, and two of the file
swap 'Mr Debiteur N1' "\"\"\"$(printf %070d 0)\"" "NO 51 2 9
line 2, column 128: the debtor name \"\"$(printf %059d 0)\" .. (71 bytes): .."
swap 'Mr Debiteur N1' $'"Mr\nDebiteur"' 'NO 52 2 9
line 2, column 59: the debtor name "Mr\x0aDebiteur": ..
No letter is changed: write the text with letters of the set.'
records "$record
${record/2026-11-10,FEE 1/10.11.2026,FEE_1}
${record/N1,GB29NWBK60161331926819/N1,GB28NWBK60161331926819}" 1 'NO 55 3 4
line 3, column 21: the collection date "10.11.2026": ..
line 3, column 33: the end-to-end id "FEE_1": ..
line 4, column 73: the debtor IBAN "GB28NWBK60161331926819": ..
No letter is changed: write the text with letters of the set.'
swap 2026-11-10 2026-02-30 'NO 55 2 4
line 2, column 27: the collection date "2026-02-30": ..'
swap 55555 '5//5' 'NO 53 2 6
line 2, column 39: the mandate id "M-5//5": ..'
swap ',Mr Debiteur N1' ',' 'NO 51 2 9
line 2, column 56: the debtor name "": ..'
swap 2009-09-01,, 2009-09-01,NOTPROVIDED, 'NO 57 2 8
line 2, column 55: the debtor BIC "NOTPROVIDED": ..'
swap GB29NWBK6016 'GB29 NWBK 6016' 'NO 57 2 10
line 2, column 75: the debtor IBAN "GB29 NWBK 60161331926819": ..'
swap GB29 GB92 'NO 58 2 10
line 2, column 73: the debtor IBAN "GB92NWBK60161331926819": ..'
expect "printf '%s\n' '$fields' '${record/FEE 1//FEE 1}' | desk list ${creditor/=Lab/=Zoë} - 2>&1 | sed \"\$cut\"" 0 'NO 52 1 4
--creditor-name: the creditor name "Zoë": ..
line 2, column 30: the end-to-end id "/FEE 1": ..
No letter is changed: write the text with letters of the set.'
# a creditor identifier with wrong check digits, given by an option and in a column
wrong='The check digits of the creditor identifier do not fit: without the business code (characters 5 to 7) the number leaves'
expect "printf '%s\n' '$fields' '$record' | desk list ${creditor/BE69000050D000000008/FR00ZZZ123456} -" 1 "NO 58 1 7
--creditor-identifier: the creditor identifier \"FR00ZZZ123456\": $wrong 26 on division by 97, and must leave 1. With the rest as it stands they would have to be 72. A digit or letter is likely mistyped."
expect "sed '2s/BE69/BE78/' examples/day.csv | desk list -" 1 "NO 58 1 7
line 2, column 93: the creditor identifier \"BE78000050D000000008\": $wrong 10 on division by 97, and must leave 1. With the rest as it stands they would have to be 69. A digit or letter is likely mistyped."
expect "printf '%s\n' '$fields' '$record' | desk list --quiet ${creditor/BE69000050D000000008/DE98ZZZ09999999999} - | desk show - | sed -n 2p" 0 'RUN-2026/07,2026-11-02T09:30:00,Bureau,Lab,BE68539007547034,,DE98ZZZ09999999999,,,,,,,,,,,'

# at most 20 faults are said, of the CSV and of its values
many() { awk -v record="$1" -v n="$2" 'BEGIN { for (; n > 0; n--) print record }'; } # RECORD COUNT
faults() { awk -v said="$1" 'BEGIN { for (n = 2; n <= 21; n++) print "line " n ", column " said }'; } # SAID
records "$(many "${record/CORE/COR1}" 20)" 1 "$(faults '1: the scheme "COR1" must be CORE or B2B.')"
records "$(many "${record/CORE/COR1}" 37)" 1 "$(faults '1: the scheme "COR1" must be CORE or B2B.')
and 17 more"
records "$(many "${record/Mr/Zoë}" 21)" 1 "NO 52 2 9
$(faults '58: the debtor name "Zoë Debiteur N1": ..')
and 1 more
No letter is changed: write the text with letters of the set."

# the limits: 1,000 collections; 1,048,576 bytes of the list
records "$(many "$record" 1000)" 0 'OK 1000 110007000'
records "$(many "$record" 1001)" 1 'NO 25 1002
line 1002, column 1: collection 1001 of 1001; a day list has at most 1000: split the CSV.'
records "$(many "$record" 4000)" 1 'NO 25 1002
line 1002, column 1: collection 1001 of 4000; a day list has at most 1000: split the CSV.'
records "$(many "$record" 1200)"$'\n'"${record/CORE/COR1}" 1 'line 1202, column 1: the scheme "COR1" must be CORE or B2B.'
records "$(many "${record/Mr Debiteur N1,GB29NWBK60161331926819,Facture N1/$(printf '%0255d,BE540,%0255d' 0 0)}" 1000)" 1 'NO 21 0
The day list of this CSV has more than 1048576 bytes: split the CSV.'
expect "awk 'NR == 1; NR == 2 { for (n = 0; n < 1000; n++) print }' examples/day.list > \$made/full.list; desk show \$made/full.list | desk list - 2> /dev/null | cmp - \$made/full.list" 0 ''
rm "$made/full.list"

# a list is shown also where values break their rules, as they are; where a line is no frame, it is not
expect "sed '2s/^020001/020204/' examples/day.list | desk show - | sed -n '3s/,2026.*//p'" 0 ',,,,,,,2,4,1100.07'
for name in 22:'"""r' 0A:$'"\nr' 0D:$'"\rr' 2C:'",r'; do
    expect "sed '2s/4D72/${name%%:*}72/' examples/day.list | desk show - | sed '1,2d; s/.*2009-09-01,,//; 5d; /2150.08/d'" 0 "${name#*:} Debiteur N1\",GB29NWBK60161331926819,Facture N1"
done
expect "sed 's/^02..../&FFFFFFFFFF/; s/\(^02....FFFFFFFFFF\)........../\1/' examples/day.list | desk show - | sed -n '3s/2026.*//p'" 0 ',,,,,,,CORE,RCUR,10995116277.75,'
expect 'head -c 590 examples/day.list | desk show - 2>&1 | head -n 1' 0 'NO 23 3'
unset fields record creditor_fields creditor cut how semicolons both options name wrong
unset -f csv records swap many faults
