run audit ramp.txt pump.pel

# Nothing is missing, and nothing folds twice.
ramp plain.txt
log whole.pel <<<'step 0.25 3'
run audit plain.txt whole.pel

# Every setting.
text all.txt 'easing CubicBezier 0.25 0.1 0.25 1 # as in CSS' 'mode PingPongTimes 3' 'scale 2' 'delay 0.5' 'duration 4' 'end -2.5' 'start 1.5'
log all.pel <<<'step 0.25
step 0.5
pause
step 9
resume
step 3'
run audit all.txt all.pel

# Every easing by its name and with its parameters, each another value; the twelve are refused.
log fifth.pel <<<'step 0.2'
eased() {
    ramp easing.txt "easing $1"
    part '^(ramp easing|tween value|refused)' audit easing.txt fifth.pel
}
eased Linear
for family in Quad Cubic Quart Quint Sine Expo Circ Back Elastic Bounce; do
    for way in In Out InOut; do eased "Ease$way$family"; done
done
for easing in 'CubicBezier 0.25 0.1 0.5 0.9' 'Steps 3' 'RoughEase 0.5 8' 'SlowMo 0.25 0.75' 'Wiggle 5' 'CustomBounce 0.3' 'ExpoScale 1 2'; do
    eased "$easing"
done

# Every setting given twice.
for line in 'start 1' 'end 1' 'duration 1' 'delay 1' 'scale 1' 'mode Once' 'easing Linear'; do
    text twice.txt "$line" 'start 0' 'end 8' 'duration 1' 'delay 0' 'scale 2' 'mode Forever' 'easing Steps 4'
    run audit twice.txt whole.pel
done

printf '\tstart 0\r\nend\t8 \r\n\r\nduration 1 # s' >blanks.txt
run audit blanks.txt whole.pel

# A reset, a log of no records, one that does not begin at 0, and one with an end.
ramp endless.txt 'mode Forever'
log reset.pel <<<'step 2.5
reset
step 0.5'
run audit endless.txt reset.pel
log none.pel <<<''
run audit plain.txt none.pel
log later.pel <<<'drop 7
step 0.5'
run audit plain.txt later.pel
ramp thrice.txt 'mode Times 3'
log ends.pel <<<'step 2
step 40'
run audit thrice.txt ends.pel

# Lists are cut behind the first 20.
for k in $(seq 25); do printf 'step %s\ndrop %s\nstep 0.5\nrepeat 1\n' "$k" "$k"; done | log many.pel
run audit endless.txt many.pel
for entries in 20 21; do
    for k in $(seq $entries); do printf 'step 0.25\ndrop 1\n'; done | { cat && echo 'step 0.25'; } | log gaps.pel
    for k in $(seq $entries); do printf 'step 0.25\nrepeat 1\n'; done | log repeats.pel
    for k in $(seq $entries); do printf 'step %s\n' $((entries + 2 - k)); done | log bursts.pel
    part '^(gap|repeat|most|answer|end)' audit endless.txt gaps.pel
    part '^(gap|repeat|most|answer|end)' audit endless.txt repeats.pel
    part '^(gap|repeat|most|answer|end)' audit endless.txt bursts.pel
done

# The largest gap that is one.
log largest.pel <<<'step 0.5
drop 65534
step 0.5'
run audit plain.txt largest.pel

# More than one part of 65,536 bytes: whole, to the last byte of a part, a gap across the cut, a gap behind
# it, only a repeat behind it, a part of nothing but repeats, a replay that stops there.
parts() {
    log parts.pel
    part '^(records|numbers|gap|missing|repeat|folds|most|stopped|tween|refused|answer|end)' audit endless.txt parts.pel
}
parts <<<'step 0.25 20000'
parts <<<'step 0.25 8192'
parts <<<'step 0.25 16384'
printf 'step 0.25 8192\ndrop 3\nstep 0.25 9\n' | parts
printf 'step 0.25 8193\ndrop 512\nstep 0.25 9000\n' | parts
printf 'step 0.25 8192\nrepeat 1\n' | parts
printf 'step 0.25 8190\nrepeat 9000\nstep 3\n' | parts
printf 'step 0.25 9000\nstep 4097\nstep 1\n' | parts
printf 'step 0.25 8191\nstep 4097\nstep 1\n' | parts

# A slow pipe: reads that end within a record and within the head, a part that comes in pieces.
printf 'step 0.25 9000\ndrop 2\nstep 2.5\n' | log slow.pel
{
    head -c 2 slow.pel
    sleep 0.2
    head -c 12 slow.pel | tail -c +3
    sleep 0.2
    head -c 65542 slow.pel | tail -c +13
    sleep 0.2
    tail -c +65543 slow.pel
} | run audit endless.txt /dev/stdin
{ cat slow.pel && printf x; } | part '^(records|stopped|answer|end)' audit endless.txt /dev/stdin
head -c -3 slow.pel | part '^(records|stopped|answer|end)' audit endless.txt /dev/stdin

# How far it is, on standard error: a file of more than 32 MiB, one of less, and a pipe.
log long.pel <<<'step 0.25 4200000'
part '^(audit|records|folds|end)' audit endless.txt long.pel
head -c 16800005 long.pel >half.pel
part '^(audit|records|folds|end)' audit endless.txt half.pel
part '^(audit|records|folds|end)' audit endless.txt /dev/stdin <half.pel
cat half.pel | part '^(audit|records|folds|end)' audit endless.txt /dev/stdin

# A replay that stops: its record is damaged, or the tween refuses it.
log good.pel <<<'step 0.5 8'
# with PLACE BYTES: the log with other bytes at a place
with() {
    cp good.pel bad.pel
    printf "$2" | dd of=bad.pel bs=1 seek="$1" conv=notrunc status=none
}
with 31 '\005'
run audit plain.txt bad.pel
with 32 '\001'
run audit plain.txt bad.pel
with 33 '\000\000\200\177'
run audit plain.txt bad.pel
with 33 '\001\000\200\113'
run audit plain.txt bad.pel
log folds.pel <<<'step 4097'
run audit endless.txt folds.pel
log lost.pel <<<'step 0.5
step 0.00000001'
run audit plain.txt lost.pel

# Refused before any record.
for line in 'delay -1' 'scale 1025' 'mode Times 65536' 'mode PingPongTimes 4294967295' 'easing EaseInSine' 'easing Steps 65537'; do
    echo "# $line"
    ramp limit.txt "$line"
    run audit limit.txt whole.pel
done
with 0 'Q'
run audit plain.txt bad.pel
with 3 '\002'
run audit plain.txt bad.pel
head -c 4 good.pel >bad.pel
run audit plain.txt bad.pel
head -c 20 good.pel >bad.pel
run audit plain.txt bad.pel

# A pipe has no length: it is cut at its end.
cat good.pel | run audit plain.txt /dev/stdin
cat bad.pel | run audit plain.txt /dev/stdin

# Files that are none.
run audit
run audit plain.txt
run audit none.txt whole.pel
run audit plain.txt missing.pel
run audit . whole.pel
run audit plain.txt .
: >empty
run audit empty whole.pel
run audit plain.txt empty
head -c 65536 /dev/zero | tr '\0' '#' >toolong.txt
run audit toolong.txt whole.pel

# Wrong ramps.
for line in 'durration 2' 'start 1' 'delay' 'delay x' 'delay 1 2' 'delay 1.2.3' 'delay 1e3' 'mode' 'mode times 3' 'mode Times' 'mode Times x' 'mode Times 1:' 'mode Times 1/' 'mode Times 4294967296' \
    'mode Once 2' 'easing' 'easing Quad' 'easing Steps' 'easing Steps 1.5' 'easing CubicBezier 0 0 1' 'easing Linear 1' \
    'scale 999999999999999999999999999999999999999999' \
    'scale 0.00000000000000000000000000000000000000000000000000000000000000001'; do
    echo "# $line"
    ramp wrong.txt "$line"
    run audit wrong.txt whole.pel
done
for given in 'end 1' 'start 1' 'start 1\nend 1'; do
    echo "# $given"
    printf "$given\n" >wrong.txt
    run audit wrong.txt whole.pel
done
