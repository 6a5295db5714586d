#!/usr/bin/env bash
# What the desk says seldom: an engine that fails or differs from it, files and texts far too long, lists cut short. The last line is
# 'seldom: N passed, M failed'.
set -u
root=$(cd "$(dirname "$0")/../.." && pwd)
. "$root/tests/try.sh"
sheet=$root/sheet
"$sheet" words > /dev/null 2>&1
desk=$root/target/desk/release/desk

# ---- engines that are none: a stand-in prints these lines and ends so

engine() {
    { printf '#!/bin/sh\ncat > /dev/null\ncat <<END\n' && cat && printf 'END\n%s\n' "$1"; } > engine
    chmod +x engine
}
printf 'processes main\nmain:\n    hold 5\n    passivate\n' > model.txt
differs="why cannot be told, since the desk differs from the engine in how it"

for lines in $'0 1 1\nrefused 4 at record 1 after 1' $'0 1 1\nrefused 3 at record 2 after 1' \
    $'0 1 1\n0 1 1\nrefused 4 at record 2 after 2'; do
    engine "exit 0" <<< "$lines"
    end=$(tail -n 1 <<< "$lines")
    wants 4 "model.txt: $end steps: $differs follows this run; please report this model" <<< "$lines"
    try "another end: $end" "$desk" run ./engine model.txt
done
engine "exit 0" <<< "sheet refused 8"
wants 5 "model.txt: sheet refused 8: $differs reads this sheet; please report this model" <<< "sheet refused 8"
try "a sheet that the desk reads" "$desk" run ./engine model.txt
engine "exit 0" <<< $'0 1 1\n0 7 99\n9 1 0\nstopped 3'
wants 3 "model.txt: stopped after 3 steps at tick 9: main has not come to its end" "  the last step: main, 'end'" <<'OUT'
0 1 1              main       hold 5
0 7 99
9 1 0              main       end
stopped 3
OUT
try "a process and a record that are not there" "$desk" run --names ./engine model.txt
engine "exit 0" <<< "0 7 99"
wants 1 "./run: the engine ended without telling how: ''" <<< "0 7 99"
try "no last line" "$desk" run ./engine model.txt
engine "exit 3" <<< "finished 0"
wants 1 "./run: the engine failed: exit status: 3" <<< "finished 0"
try "an engine that fails" "$desk" run ./engine model.txt
engine 'kill -9 $$' <<< "0 1 1"
wants 1 "./run: the engine failed: signal: 9 (SIGKILL)" <<< "0 1 1"
try "an engine that is killed" "$desk" run ./engine model.txt
wants 1 "./run: the engine, ./none, cannot be started: No such file or directory (os error 2)" < /dev/null
try "no engine" "$desk" run ./none model.txt

# ---- why a step was refused

run() { "$desk" run "$root/target/bin/run_print" "$1"; }
printf 'processes main p2..p12\nmain:\n    cancel p2..p12\n    passivate\np2..p12:\n    hold 1\n' > many.txt
"$sheet" build many.txt many.sheet > /dev/null
wants 4 "many.txt:4: refused 4 at tick 0, record 12: main could not do 'passivate': nobody else is scheduled, and nobody could go on" \
    "  idle: p2, p3, p4, p5, p6, p7, p8, p9 and 3 more" \
    "  some process has to stay scheduled as long as the run is to go on, main by a 'hold' perhaps" \
    < <("$root/target/bin/run_print" < many.sheet)
try "many that are idle" run many.txt
printf 'heads q\nprocesses main\nmain:\n    clear current\n' > kind.txt
wants 4 "kind.txt:4:11: warning: this step is always refused with 3: current is a process, and 'clear' takes a head" \
    "kind.txt:4: refused 3 at tick 0, record 1: main could not do 'clear current': current is main, a process, and 'clear' takes a head" \
    <<< "refused 3 at record 1 after 0"
try "current where a head is asked for" run kind.txt

# ---- far too much

{ printf 'processes main\nmain:\n' && yes '    hold ten' | head -n 600; } > wrong.txt
wants 1 "wrong.txt:1:1: error: more than 500 mistakes: not all are told" \
    "$(seq -f 'wrong.txt:%.0f:10: error: expected a whole number, found '"'ten'" 3 502)" < /dev/null
try "600 mistakes" "$sheet" check wrong.txt
{ printf 'processes main\nmain:\n' && yes '    accum 1 by 2000001' | head -n 600; } > warned.txt
"$sheet" check warned.txt > out 2> err
wants 0 < <(echo "warned.txt:1:1: warning: more than 500 warnings: not all are told" && echo 501)
try "600 warnings" eval 'head -n 1 err && wc -l < err'
truncate -s $((64 * 1024 * 1024 + 1)) huge
wants 2 "./sheet: huge has more than 67108864 bytes: no model is so long" < /dev/null
try "a file of more than 64 MiB" "$sheet" show huge
wants 6 "./sheet: . cannot be written: it is a directory" < /dev/null
try "a sheet in the place of a directory" "$sheet" build model.txt .

close seldom
