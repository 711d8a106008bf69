run plot swing.txt shift.pel
"$root/bin/plot" swing.txt shift.pel | cmp - "$root/docs/shift.svg"
run plot ramp.txt pump.pel
run plot swing.txt

# An end, a delay and a scale; a constant; nothing at all.
text once.txt 'start 0' 'end -0.001' 'duration 10' 'delay 5' 'scale 2' 'easing Steps 4'
run plot once.txt
text flat.txt 'start 3' 'end 3' 'duration 0'
run plot flat.txt
log none.pel <<<''
run plot swing.txt none.pel

# Repeats, a reset, more labels than there is room for, and a replay that stops.
for k in $(seq 2 40); do printf 'step %s\ndrop %s\nstep 0.5\n' "$k" "$k"; done | log many.pel
text endless.txt 'start 0' 'end 8' 'duration 1' 'mode Forever'
run plot endless.txt many.pel
log stops.pel <<<'step 0.25 9
repeat 1
reset
step 0.25 3
step 4097
step 1'
run plot endless.txt stops.pel


# Long logs: more than a part, more records than columns, a gap and a repeat behind the cut.
log long.pel <<<'step 0.25 9000
drop 512
step 600
repeat 2
step 0.25 20000'
picture endless.txt long.pel
picture swing.txt long.pel

# A scale of 0 stands still; so does a log of nothing but pauses.
text still.txt 'start 1' 'end 2' 'duration 4' 'scale 0'
picture still.txt
log pauses.pel <<<'step 0.25 2
pause
step 1 2'
picture still.txt pauses.pel

# Very large and very small values and times.
text large.txt 'start -16777216' 'end 16777216' 'duration 16777216' 'mode Times 8'
picture large.txt
text small.txt 'start 0' 'end 0.00000000000000000000000000000000000001' 'duration 0.000001'
picture small.txt
text level.txt 'start 16777215' 'end 16777216' 'duration 0.5' 'mode PingPong' 'easing EaseInOutBack'
picture level.txt
text below.txt 'start -0.000000125' 'end -0.00000012' 'duration 1' 'easing CustomBounce 1'
picture below.txt

# Labels that touch, at the left, in the middle and at the right; as many as there is room for; none where a replay stops.
log touch.pel <<<'step 2
drop 1
step 3
drop 22
step 90
drop 333
step 7
step 8
drop 4444
step 2
drop 55555
step 5'
run plot endless.txt touch.pel
log ends.pel <<<'step 4000
drop 1
step 96
step 5
drop 2
step 0.5
step 4097'
run plot endless.txt ends.pel
log right.pel <<<'step 0.25 4
step 4000'
run plot endless.txt right.pel
log late.pel <<<'step 100
step 0.5 2
drop 7
step 0.5
step 12
drop 8
step 3
step 4097'
run plot endless.txt late.pel

# Every easing's parameters in the title, and a delay.
for easing in 'CubicBezier 0.25 0.1 0.5 0.9' 'SlowMo 0.25 0.75'; do
    text titled.txt 'start 0' 'end 8' 'duration 1' 'delay 0.5' "easing $easing" 'mode PingPongTimes 12'
    picture titled.txt
done

run plot
run plot none.txt
run plot swing.txt missing.pel
run plot . shift.pel
run plot swing.txt .
text wrong.txt 'start 0' 'stop 1'
run plot wrong.txt
text limit.txt 'start 0' 'end 1' 'duration -1'
run plot limit.txt shift.pel
: >empty
run plot empty
run plot swing.txt empty
printf 'PEM\001\000' >bad.pel
run plot swing.txt bad.pel
printf 'PEL\002\000' >bad.pel
run plot swing.txt bad.pel
head -c 20 shift.pel >bad.pel
run plot swing.txt bad.pel
cat shift.pel | run plot swing.txt /dev/stdin
