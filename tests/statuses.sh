# said STATUS: what a call said on standard error, and its status
said() {
    sed 's/^/! /' errors
    printf 'status %s\n\n' "$1"
}

# into PLACE PROGRAM WORD..: a call whose standard output goes elsewhere
into() {
    local status=0
    echo "\$ ${*:2} >$1"
    "$root/bin/$2" "${@:3}" 2>errors >"$1" || status=$?
    said "$status"
}

# closed PROGRAM WORD..: a call whose standard output is closed
closed() {
    local status=0
    echo "\$ $* >&-"
    "$root/bin/$1" "${@:2}" 2>errors >&- || status=$?
    said "$status"
}

ramp plain.txt
ramp endless.txt 'mode Forever'
log whole.pel <<<'step 0.25 3'
text small.txt 'step 0.02' 'pause' 'resume' 'step -0' 'reset'

# What the words ask for.
for each in audit makelog plot; do
    run "$each" --help
    run "$each" --version
done
run audit --help plain.txt
run audit plain.txt whole.pel more
run makelog small.txt extra.pel more
ls extra.pel 2>/dev/null || echo "no extra.pel"
run plot plain.txt whole.pel more
echo "# a name of 5,000 bytes"
long=$(printf '%5000s' '' | tr ' ' x)
"$root/bin/audit" "$long" whole.pel 2>errors || said $?
"$root/bin/makelog" small.txt "$long" 2>errors || said $?

# Output that can't be written.
into /dev/full audit plain.txt whole.pel
into /dev/full makelog small.txt small.pel
into /dev/full plot plain.txt
into /dev/full audit --version
into /dev/full audit none.txt whole.pel
closed audit plain.txt whole.pel
closed makelog small.txt small.pel
closed plot plain.txt
run makelog small.txt /dev/full
echo "# a reader that ends early"
text long.txt 'step 0.25 70000'
status=0
"$root/bin/makelog" long.txt /dev/stdout 2>errors | head -c 5 | od -An -tx1 || status=${PIPESTATUS[0]}
said "$status"
echo "# standard error and standard input closed"
status=0
"$root/bin/makelog" small.txt small.pel <&- 2>&- || status=$?
echo "status $status"
"$root/bin/audit" none.txt whole.pel 2>&- || status=$?
echo "status $status"
od -An -tx1 -v small.pel

# Every byte as it was written, beside what others write to the same file.
"$root/bin/makelog" small.txt /dev/stdout | od -An -tx1 -v
for times in once again; do
    { echo before && "$root/bin/makelog" small.txt /dev/stdout && echo behind; } >>shared
done
od -An -tx1 -v shared
"$root/bin/makelog" long.txt /dev/stdout | { head -c 560005 | cksum && cat >/dev/null; }
"$root/bin/makelog" long.txt long.pel >made
cksum <long.pel

# Files that the caller holds open.
"$root/bin/audit" <(cat plain.txt) /dev/fd/3 3<whole.pel | tail -n 1

# Through links, from another folder.
mkdir elsewhere
ln -s "$root/bin/audit" elsewhere/look
ln -s look elsewhere/look-again
(cd elsewhere && ./look-again ../plain.txt ../whole.pel | tail -n 1)

# What is quoted of a file, and the name of one.
for word in '\033[31mred' 'a\\x1bb' '\377\000\177~' "$(printf '%040d' 0)" "$(printf '%041d' 0)" "$(printf '%039d' 0)"'\033z'; do
    printf "start 0\n$word\n" >quoted.txt
    run audit quoted.txt whole.pel
done
printf 'pause\n\033]0;title\007\n' >quoted.txt
run makelog quoted.txt quoted.pel
printf 'stop' >$'\e[1mname\\'
echo "# a name with an escape sequence"
"$root/bin/audit" $'\e[1mname\\' whole.pel 2>errors || said $?
"$root/bin/audit" plain.txt $'\e[1mnone' 2>errors || said $?
"$root/bin/makelog" small.txt $'none/\e[1mnone' 2>errors || said $?

# Numbers have 16 bits: what they show, and what they can't.
for lost in 1 512 65534 65535 65536 65537 66048 131072; do
    log lost.pel <<<"step 2
drop $lost
step 3"
    echo "# $lost lost"
    run audit endless.txt lost.pel
done
for lost in 512 65535 65536; do
    log late.pel <<<"drop $lost
step 2"
    echo "# $lost lost before the first"
    run audit endless.txt late.pel
done
# The passes of records behind a gap, behind a repeat, and behind a lost beginning that goes on to a gap.
log behind.pel <<<'step 2
step 0.25
repeat 1
step 2
drop 1
step 2'
run audit endless.txt behind.pel
log behind.pel <<<'step 2
drop 1
step 2
repeat 2'
run audit endless.txt behind.pel
log behind.pel <<<'drop 3
step 2
drop 3
step 4097'
run audit endless.txt behind.pel
