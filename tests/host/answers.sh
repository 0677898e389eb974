# What the command prints of messages and lists, and the options that change it.

# standard input, and arguments in any order
expect 'desk check - < examples/printed.xml' 0 "$(cat crates/checker/stdout)"
expect 'desk check --explain -- examples/printed.xml | head -n 3' 0 "$(cat crates/checker/stdout)"
expect 'desk --explain check examples/printed.xml | head -n 3' 0 "$(cat crates/checker/stdout)"
expect 'desk check - < /dev/null' 1 'NO 2 0'
expect 'desk check /dev/zero' 1 'NO 1 1048576'
expect 'desk write --ceiling 2 - < examples/day.list 2> /dev/null | cmp - examples/day.xml' 0 ''
expect 'desk --ceiling=2 write examples/day.list 2> /dev/null | cmp - examples/day.xml' 0 ''
expect 'desk write /dev/zero --ceiling 2' 1 'NO 21 0'
expect 'desk write - --ceiling 2 < /dev/null' 1 'NO 24 0'
expect 'desk --help | head -n 1' 0 'desk checks SEPA direct-debit messages (pain.008.001.08), and writes one from a day list.'
expect 'desk check -h > /dev/null' 0 ''
expect 'cmp <(desk -h) <(desk write --help)' 0 ''
expect 'desk --version' 0 "desk $(sed -n 's/^#define DESK_VERSION "\(.*\)"$/\1/p' include/desk.h), for pain.008.001.08"
expect 'desk --help | awk "length > 105"' 0 ''

# document 01: 64 collections at ceiling 1 pass; 65, which docs/NUMBERS.md shows, do not
expect "awk 'NR == 1; NR == 2 { for (n = 0; n < 64; n++) print }' examples/day.list | desk write - --ceiling 1 2> /dev/null | desk check - | head -n 1" 0 'OK 64 64 7040448'

# an absent declaration is never reported as one that agrees
expect 'desk check examples/lost-tail-new-header.xml --explain | grep -c "is declared, so nothing was compared"' 0 4
expect 'desk check examples/lost-tail-new-header.xml --explain | grep -ci agree' 1 0

# several files: the name before each line, and the worst status
expect 'desk check examples/day.xml examples/lost-tail.xml' 1 'examples/day.xml: OK 1 2 325015
examples/day.xml: B 1 2 325015 2 325015
examples/lost-tail.xml: NO 8 233'
expect 'desk check examples/lost-tail.xml /nowhere examples/day.xml 2> /dev/null' 2 'examples/lost-tail.xml: NO 8 233
examples/day.xml: OK 1 2 325015
examples/day.xml: B 1 2 325015 2 325015'
expect 'desk check - examples/cut-off.xml < examples/day.xml' 1 '-: OK 1 2 325015
-: B 1 2 325015 2 325015
examples/cut-off.xml: NO 2 2170'
expect 'desk check --explain examples/day.xml examples/lost-tail.xml | grep -vc "^examples/[a-z-]*.xml: "' 1 0

# --declared: accepted and not declared is 3, worse than 0 and better than 1
expect 'desk check --declared examples/day.xml' 0 'OK 1 2 325015
B 1 2 325015 2 325015'
expect 'desk check --declared --quiet examples/printed.xml' 3 'desk: examples/printed.xml: accepted, but not everything is declared; no count in batch 2; no sum in batch 1 2'
expect 'desk check --declared examples/printed.xml 2> /dev/null' 3 "$(cat crates/checker/stdout)"
expect 'desk check --declared --quiet examples/printed.xml examples/day.xml 2> /dev/null' 3 ''
expect 'desk check --declared --quiet examples/printed.xml examples/lost-tail.xml 2> /dev/null' 1 ''
expect "sed 's/<NbOfTxs>2<.NbOfTxs>//2' examples/day.xml | desk check --declared --quiet -" 3 'desk: -: accepted, but not everything is declared; no count in batch 1'

# --quiet
expect 'desk check --quiet examples/day.xml' 0 ''
expect 'desk check --quiet examples/lost-tail.xml' 1 ''
expect 'desk write --quiet examples/day.list --ceiling 2 | cmp - examples/day.xml' 0 ''
expect 'desk write --quiet examples/day.xml --ceiling 2' 1 ''

# --json
expect 'desk check --json examples/printed.xml' 0 '{"file":"examples/printed.xml","status":0,"batches":2,"transactions":3,"cents":653015,"batch":[{"number":1,"transactions":2,"cents":325015,"declared_count":2,"declared_cents":null},{"number":2,"transactions":1,"cents":328000,"declared_count":null,"declared_cents":null}]}'
expect 'desk check --json examples/cut-off.xml' 1 "{\"file\":\"examples/cut-off.xml\",\"status\":1,\"number\":2,\"place\":2170,\"means\":\"The message is not of the profile's form.\",\"line\":43,\"column\":9,\"transactions\":2,\"cents\":325015,\"declared_count\":4,\"declared_cents\":703015,\"cut_off\":true,\"begun\":true}"
expect 'desk check --json examples/lost-tail-declared.xml' 1 '{"file":"examples/lost-tail-declared.xml","status":1,"number":6,"place":465,"means":"The count that a batch declares differs from the number of its transactions.","line":15,"column":16,"transactions":3,"cents":375015,"declared_count":3,"declared_cents":375015,"batch":[{"number":1,"transactions":2,"cents":325015,"declared_count":3,"declared_cents":653015},{"number":2,"transactions":1,"cents":50000,"declared_count":1,"declared_cents":50000}]}'
expect 'desk check --json --declared examples/day.xml /nowhere examples/printed.xml 2> /dev/null | cut -c 1-50' 0 '{"file":"examples/day.xml","status":0,"batches":1,
{"file":"/nowhere","status":2,"error":"cannot be r
{"file":"examples/printed.xml","status":3,"batches'
expect 'desk write --json examples/day.list --ceiling 1 2>&1 > /dev/null' 0 '{"file":"examples/day.list","status":0,"bytes":2338,"batches":2,"transactions":2,"cents":325015,"batch":[{"number":1,"transactions":1,"cents":110007,"declared_count":1,"declared_cents":110007},{"number":2,"transactions":1,"cents":215008,"declared_count":1,"declared_cents":215008}]}'
expect "sed '3s/^0200/0202/' examples/day.list | desk write --json - --ceiling 1" 1 '{"file":"-","status":1,"number":56,"place":3,"means":"A code is none of those that may stand there.","field":1,"field_name":"scheme"}'
expect "sed '1s/4242525542454242/4242525542454243/; 1s/42453638/42453639/' examples/day.list | desk write --json - --ceiling 1" 1 '{"file":"-","status":1,"number":58,"place":1,"means":"The check digits of an IBAN or a creditor identifier do not fit.","field":5,"field_name":"creditor IBAN"}'
expect "sed '1s/42453639/42453738/' examples/day.list | desk write --json - --ceiling 1" 1 '{"file":"-","status":1,"number":58,"place":1,"means":"The check digits of an IBAN or a creditor identifier do not fit.","field":7,"field_name":"creditor identifier"}'
expect "sed 's/FEE 2/FEE_2/' examples/day.xml | desk check --json -" 1 '{"file":"-","status":1,"number":52,"place":1353,"means":"A text has a letter that is not in the letter set.","line":1,"column":1354}'
expect 'desk write --json examples/day.xml --ceiling 1' 1 '{"file":"examples/day.xml","status":1,"number":23,"place":1,"means":"A line is not a frame of its kind, or lacks its LF."}'
expect 'cp examples/day.xml "$made/a\"b" && cd "$made" && desk check --json "a\"b" | cut -c 1-26; rm "a\"b"' 0 '{"file":"a\"b","status":0,'
# every line of the text is a string of the explanation
expect 'diff <(desk check --json --explain examples/cut-off.xml | grep -o "\"explanation\":.*" | tr -cd "{" ; desk check --json --explain examples/cut-off.xml | sed "s/.*\"explanation\":\[//; s/]}$//; s/\",\"/\"\n\"/g" | wc -l) <(desk check --explain examples/cut-off.xml | tail -n +2 | wc -l)' 0 ''
