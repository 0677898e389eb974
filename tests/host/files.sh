# Files that cannot be read or written; and that a file is written whole, with the rights it should have, or not at all.
refuse 'desk check /nowhere/message.xml' 'cannot read'
refuse 'desk check examples' 'cannot read'
refuse 'desk write /nowhere/day.list --ceiling 2' 'cannot read'
refuse 'desk write - --ceiling 2 < examples' 'cannot read'
refuse 'desk check examples/printed.xml > /dev/full' 'cannot write'
refuse 'desk write examples/day.list --ceiling 2 > /dev/full' 'cannot write'
refuse 'desk write examples/day.list --ceiling 2 -o /nowhere/message.xml' 'cannot write'
refuse 'desk write examples/day.list --ceiling 2 -o "$(printf %04096d 0)"' 'name too long'
refuse 'desk write examples/day.list --ceiling 2 -o "$made/new/"' 'cannot write'
left ''

# a refused list and a failed write leave no file, and an older file as it was
expect "head -c 500 examples/day.list | desk write - --ceiling 2 -o \$made/a.xml" 1 'NO 23 3'
left ''
mkdir "$made/folder"
refuse "desk write examples/day.list --ceiling 2 -o \$made/folder" 'no regular file'
ln -s a.xml "$made/link"
refuse "desk write examples/day.list --ceiling 2 -o \$made/link" 'no regular file'
mkfifo "$made/pipe"
refuse "desk write examples/day.list --ceiling 2 -o \$made/pipe" 'no regular file'
left 'folder link pipe '
rm -r "$made/folder" "$made/link" "$made/pipe"
cp examples/day.list "$made/list"
ln -s list "$made/link"
for list in "\$made/list" "\$made/../made/list" "\$made/link" "- < \$made/list"; do
    refuse "desk write --ceiling 2 -o \$made/list $list" 'the input itself'
done
expect "cmp examples/day.list \$made/list" 0 ''
rm "$made/list" "$made/link"
echo older > "$made/a.xml"
expect "head -c 500 examples/day.list | desk write - --ceiling 2 -o \$made/a.xml; cat \$made/a.xml" 0 $'NO 23 3\nolder'
expect "desk write examples/day.list --ceiling 2 -o \$made/a.xml && cmp \$made/a.xml examples/day.xml" 0 $'OK 1 2 325015\nB 1 2 325015 2 325015'
left 'a.xml '
echo older > "$made/a.xml"
refuse "ulimit -f 1; trap '' XFSZ; desk write examples/day.list --ceiling 2 -o \$made/a.xml" 'cannot write'
expect "cat \$made/a.xml" 0 older
left 'a.xml '

# the rights of an older file stay, whatever the umask; a new file's are the umask's
for rights in 600 640 644 664; do
    chmod "$rights" "$made/a.xml"
    expect "umask 027; desk write examples/day.list --ceiling 1 -o \$made/a.xml > /dev/null && stat -c %a \$made/a.xml" 0 "$rights"
done
rm "$made/a.xml"
expect "umask 027; desk write examples/day.list --ceiling 1 -o \$made/a.xml > /dev/null && stat -c %a \$made/a.xml" 0 640
if [ "$(id -u)" = 0 ]; then
    chown 65534:65534 "$made/a.xml"
    expect "desk write examples/day.list --ceiling 1 -o \$made/a.xml > /dev/null && stat -c '%u %g %a' \$made/a.xml" 0 '65534 65534 640'
fi
rm "$made/a.xml"

# a name of 255 bytes, and a path of nearly 4,096
long=$(printf %0255d 0)
expect "desk write examples/day.list --ceiling 1 -o \$made/$long | tail -n 1" 0 'B 2 1 215008 1 215008'
rm "$made/$long"
deep=$made
while [ ${#deep} -lt 3840 ]; do deep=$deep/$(printf %0100d 0); done
mkdir -p "$deep"
expect "desk write examples/day.list --ceiling 1 -o '$deep/$(printf "%0$((4093 - ${#deep}))d" 0)' | tail -n 1" 0 'B 2 1 215008 1 215008'
rm -r "${made:?}"/*

# what has arrived is never reported as if it had not
expect "desk write examples/day.list --ceiling 2 -o \$made/a.xml 2>&1 > /dev/full | sed 's,[^ ]*/made/,,; s,: [^:]*\$,,'; cmp \$made/a.xml examples/day.xml" 0 'desk: a.xml is written, whole; its lines could not be printed'
expect "desk write examples/day.list --ceiling 2 -o \$made/a.xml > /dev/full 2> /dev/null" 2 ''
rm "$made/a.xml"
expect "desk write examples/day.list --ceiling 2 2> /dev/full | cmp - examples/day.xml" 0 ''
expect "desk write examples/day.list --ceiling 2 > \$made/a.xml 2> /dev/full" 0 ''
rm "$made/a.xml"

# signals that come while a file is written: it is whole, and nothing stands beside it. The emulator of an Arm
# machine has its own way with signals, so that this says nothing there.
[ "$(uname -m)" != x86_64 ] || expect "tests/signals 20 '$desk' > /dev/null" 0 ''
left ''

# the right to write is nobody's question for root, who is made another user here
chmod 755 "$room" "$room/bin"
chmod 555 "$made"
if [ "$(id -u)" = 0 ]; then other='setpriv --reuid=65534 --regid=65534 --clear-groups'; else other=''; fi
if $other test -x "$room/bin/desk" -a -r examples/day.list && $other desk --help > /dev/null 2>&1; then
    refuse "$other desk write examples/day.list --ceiling 2 -o \$made/a.xml" 'cannot write'
    # a folder that may be written and not read takes a file all the same
    chmod 733 "$made"
    expect "$other desk write examples/day.list --ceiling 2 -o \$made/a.xml > /dev/null && cmp \$made/a.xml examples/day.xml" 0 ''
    rm "$made/a.xml"
else
    echo "the folder without the right to write was not tried: no other user reaches the command"
fi
chmod 755 "$made"
