# The example's log is what its script makes.
run makelog pump.txt made.pel
cmp made.pel pump.pel

text small.txt 'step 0.02' 'pause' 'resume' 'step -0' 'reset'
run makelog small.txt small.pel
od -An -tx1 -v small.pel

text dropped.txt 'drop 65535' 'step 1' 'drop 65536' 'step 1 2' 'drop 1' 'reset' 'repeat 2'
run makelog dropped.txt dropped.pel
od -An -tx1 -v dropped.pel

printf '# nothing but blanks\n\n  \t\n\tstep\t+.5 2\t# two\r\npause' >blanks.txt
run makelog blanks.txt blanks.pel
od -An -tx1 -v blanks.pel

: >empty.txt
run makelog empty.txt empty.pel
od -An -tx1 -v empty.pel

# Nothing written, dropped or repeated; a repeat behind a line that drops nothing.
text nothing.txt 'step 1 0' 'drop 0' 'pause' 'repeat 0' 'drop 0' 'step 3 0' 'repeat 1' 'step 2' 'drop 65536' 'reset'
run makelog nothing.txt nothing.pel
od -An -tx1 -v nothing.pel
for line in 'step 1 0' 'drop 0'; do
    text wrong.txt "$line" 'repeat 1'
    run makelog wrong.txt wrong.pel
done

# Repeats and drops across the buffer's end.
text across.txt 'step 0.25 8190' 'repeat 3' 'step 0.5 2' 'drop 2' 'pause' 'repeat 9000' 'resume'
run makelog across.txt across.pel
wc -c <across.pel
cksum <across.pel | cut -d' ' -f1
head -c 65581 across.pel | tail -c 64 | od -An -tx1 -v
tail -c 24 across.pel | od -An -tx1 -v

# Longer than the buffer: the numbers go on, and begin again behind 65,535.
text long.txt 'step 0.25 70000'
run makelog long.txt long.pel
wc -c <long.pel
tail -c 16 long.pel | od -An -tx1 -v

# What is wrong is found before the log is opened.
for line in walk step 'step x' 'step 1 x' 'step 1 2 3' 'step 1 4294967296' 'step 1e3' 'drop' 'drop -1' 'pause 2' \
    'repeat 1' 'step 99999999999999999999999999999999999999999' \
    'step 0.00000000000000000000000000000000000000000000000000000000000000001'; do
    echo "# $line"
    text wrong.txt '# the second line is wrong' "$line"
    run makelog wrong.txt wrong.pel
done
text wrong.txt 'step 1' 'drop 1' 'repeat 1'
run makelog wrong.txt wrong.pel
for line in 'step -1' 'step -0.5 0' 'step 16777217.5' 'step 16777216'; do
    echo "# $line"
    text refused.txt 'pause' "$line"
    run makelog refused.txt refused.pel
done
ls wrong.pel 2>/dev/null || echo "no wrong.pel"

run makelog
run makelog small.txt
run makelog none.txt none.pel
run makelog . none.pel
run makelog small.txt none/none.pel
run makelog small.txt .
head -c 65536 /dev/zero | tr '\0' '#' >toolong.txt
run makelog toolong.txt none.pel
