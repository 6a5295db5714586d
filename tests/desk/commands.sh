#!/usr/bin/env bash
# The desk's commands as a planner types them: exit status, standard output and standard error of ./run and ./sheet for each end of a run
# and each wrong use. The last line is 'commands: N passed, M failed'.
set -u
root=$(cd "$(dirname "$0")/../.." && pwd)
. "$root/tests/try.sh"
run=$root/run sheet=$root/sheet

# A first call, so that what it says while it builds is not compared.
"$run" "$root/examples/worked.sheet" > /dev/null 2>&1

# ---- ends of a run

wants 0 < "$root/crates/run_print/stdout"
try "a sheet that finishes" "$run" "$root/examples/worked.sheet"

wants 0 <<'OUT'
0 2 1              main       activate process3 delay 5
0 2 2              main       hold 10
5 3 3              process3   into current head1
5 3 0              process3   end
finished 4
OUT
try "a sheet with names" "$run" --names "$root/examples/worked.sheet"

cat > shop.txt <<'TEXT'
heads goods_in done
processes main bench
links crate1..crate2
main:
    into crate1..crate2 goods_in
    activate bench delay 0
    hold 100
bench:
    again: into first(goods_in) done
    hold 6
    goto again
TEXT
"$sheet" build shop.txt shop.sheet > /dev/null
cp shop.sheet bare.sheet
wants 4 "shop.txt:9: refused 3 at tick 12, record 5: bench could not do 'into first(goods_in) done': goods_in was empty" \
    "  ask first: 'if empty goods_in goto LABEL'" < <("$root/target/bin/run_print" < shop.sheet)
try "a text with a refused step" "$run" shop.txt
try "a sheet with its map beside it" "$run" shop.sheet
wants 4 "bare.sheet: refused 3 at tick 12, record 5: process4 could not do 'into first(head1) head2': head1 was empty" \
    "  ask first: 'if empty head1 goto LABEL'" < <("$root/target/bin/run_print" < shop.sheet)
try "a sheet without a map" "$run" bare.sheet
cp "$root/examples/worked.sheet" other.sheet
cp shop.sheet.map other.sheet.map
wants 0 "other.sheet.map: warning: this is not the map of other.sheet, and is not used" < "$root/crates/run_print/stdout"
try "a sheet with another's map" "$run" other.sheet
wants 4 "shop.txt:9: refused 3 at tick 12, record 5: bench could not do 'into first(goods_in) done': goods_in was empty" \
    "  ask first: 'if empty goods_in goto LABEL'" <<'OUT'
0 3 1              main       into crate1 goods_in
0 3 2              main       into crate2 goods_in
0 3 3              main       activate bench delay 0
0 3 4              main       hold 100
0 4 5              bench      into first(goods_in) done
0 4 6              bench      hold 6
6 4 5              bench      into first(goods_in) done
6 4 6              bench      hold 6
refused 3 at record 5 after 8
OUT
try "a text with names" "$run" --names shop.txt

# Tries model.txt, a step of which is refused: the lines that tell why.
refused() {
    local name=$1 why=$2 hints=("${@:3}")
    "$sheet" build model.txt model.sheet > /dev/null 2>&1
    wants 4 "$why" "${hints[@]}" < <("$root/target/bin/run_print" < model.sheet)
    try "$name" "$run" model.txt
}
model() { { printf 'heads q r\nprocesses main a b\nlinks c\nmain:\n' && cat; } > model.txt; }
links="takes a process or a link"
stay="some process has to stay scheduled as long as the run is to go on, main by a 'hold' perhaps"

model <<< $'    into c q\n    hold 2\n    into a first(q)\na:\n    end\nb:\n    end'
refused "the first of a queue is a link" "model.txt:7: refused 3 at tick 2, record 3: main could not do 'into a first(q)':\
 the first in q was c, a link, and 'into' takes a head"
model <<< $'    into c q\n    follow a c\n    wait first(q)\na:\n    end\nb:\n    end'
refused "behind a link" "model.txt:7: refused 3 at tick 0, record 3: main could not do 'wait first(q)':\
 the first in q was c, a link, and 'wait' takes a head"
model <<< $'    into c q\n    precede a c\n    wait first(q)\na:\n    end\nb:\n    end'
refused "in front of a link" "model.txt:7: refused 3 at tick 0, record 3: main could not do 'wait first(q)':\
 the first in q was a, a process, and 'wait' takes a head"
model <<< $'    into a q\n    follow c q\n    precede b q\n    out a\n    wait first(q)\na:\n    end\nb:\n    end'
refused "links beside a head" "model.txt:9: refused 3 at tick 0, record 5: main could not do 'wait first(q)':\
 the first in q was c, a link, and 'wait' takes a head"
model <<< $'    follow first(q) c\na:\n    end\nb:\n    end'
refused "nobody in the queue" "model.txt:5: refused 3 at tick 0, record 1: main could not do 'follow first(q) c': q was empty" \
    "  ask first: 'if empty q goto LABEL'"
model <<< $'    into c q\n    into a q\n    into b q\n    activate first_process(q)\n    hold 5\na:\n    out first(r)\nb:\n    end'
refused "the first process, behind a link" "model.txt:11: refused 3 at tick 0, record 6: a could not do 'out first(r)': r was empty" \
    "  ask first: 'if empty r goto LABEL'"
model <<< $'    into c q\n    into a q\n    activate a delay 5\n    activate b before first_process(q)\n    passivate
a:\n    end\nb:\n    cancel first_process(q)\n    passivate'
refused "cancel of the first process, and before it" "model.txt:14: refused 4 at tick 5, record 7: b could not do 'passivate':\
 nobody else is scheduled, and nobody could go on" "  idle: main, a (in q)" "  $stay"
model <<< $'    into c q\n    activate first_process(q)\n    cancel first_process(q)\n    activate a before first_process(q)
    reactivate main after first_process(q)\na, b:\n    end'
refused "no process in the queue" "model.txt:9: refused 4 at tick 0, record 5: main could not do 'reactivate main after first_process(q)':\
 nobody else is scheduled, and nobody could go on" "  idle: a, b" "  $stay"
model <<< $'    wait q\na:\n    end\nb:\n    end'
refused "the last one waits" "model.txt:5: refused 4 at tick 0, record 1: main could not do 'wait q':\
 nobody else is scheduled, and nobody could go on" "  idle: a, b" "  $stay"
model <<< $'    activate a delay 3\n    wait q\na:\n    activate b\nb:\n    hold 4'
refused "the last one ends" "model.txt:9: refused 4 at tick 7, record 0: b could not end:\
 nobody else is scheduled, and nobody could go on" "  idle: main (in q)" "  at their end: a" "  $stay"
model <<< $'    hold 1099511627775\n    activate a delay 1\na:\n    end\nb:\n    end'
refused "a delay past the latest tick" "model.txt:6: refused 5 at tick 1099511627775, record 2: main could not do 'activate a delay 1':\
 tick 1099511627776 is above the latest, 1099511627775"
model <<< $'    activate a at 1099511627776\na:\n    end\nb:\n    end'
refused "at a tick past the latest" "model.txt:5: refused 5 at tick 0, record 1: main could not do 'activate a at 1099511627776':\
 tick 1099511627776 is above the latest, 1099511627775"
model <<< $'    accum 7 by -999999\n    hold 5\n    accum 7 by -2\na:\n    end\nb:\n    end'
refused "a rate past its limit" "model.txt:7: refused 7 at tick 5, record 3: main could not do 'accum 7 by -2':\
 the rate of accumulator 7 was -999999 and would be -1000001: a rate lies between -1000000 and 1000000"
crowd() { { printf 'heads q r\nprocesses main a\nlinks c1..c512\nmain:\n    into c1..c512 q\n' && cat; } > model.txt; }
takes="q had 512 members, and a queue takes no more"
leave="some member has to leave it first, by 'out first(q)' perhaps, or the others need a second queue"
crowd <<< $'    into a q\na:\n    end'
refused "a queue that is full" "model.txt:6: refused 10 at tick 0, record 513: main could not do 'into a q': $takes" "  $leave"
crowd <<< $'    into first(q) q\n    out c9\n    follow c9 c9\n    into c9 r\n    follow first(r) first(q)\n    hold 3\n    precede a c7
a:\n    end'
refused "beside a member of it" "model.txt:12: refused 10 at tick 3, record 519: main could not do 'precede a c7': $takes" "  $leave"
crowd <<< $'    wait q\na:\n    end'
refused "the last one waits in it" "model.txt:6: refused 10 at tick 0, record 513: main could not do 'wait q': $takes" "  $leave"
crowd <<< $'    out c512\n    into main q\n    wait q\na:\n    end'
refused "one of its members waits" "model.txt:8: refused 4 at tick 0, record 515: main could not do 'wait q':\
 nobody else is scheduled, and nobody could go on" "  idle: a" "  $stay"
always="warning: this step is always refused with 3"
model <<< $'    out none\na:\n    end\nb:\n    end'
refused "out of none" "model.txt:5:9: $always: this is none, and 'out' $links" \
    "model.txt:5: refused 3 at tick 0, record 1: main could not do 'out none': it is none, and 'out' $links"
model <<< $'    out q\na:\n    end\nb:\n    end'
refused "out of a head" "model.txt:5:9: $always: 'q' is a head, and 'out' $links" \
    "model.txt:5: refused 3 at tick 0, record 1: main could not do 'out q': q is a head, and 'out' $links"

cat > loop.txt <<'TEXT'
processes main a
main:
    activate a delay 7
    hold 9
a:
    again: hold 0
    goto again
TEXT
"$sheet" build loop.txt loop.sheet > /dev/null
wants 3 "loop.txt: stopped after 1000000 steps at tick 7: main has not come to its end" \
    "  the last 999998 steps were all at tick 7: perhaps a loop without a hold above 0" \
    "  the last step: a, 'hold 0' on line 6" < <("$root/target/bin/run_print" < loop.sheet)
try "a loop without a hold" "$run" loop.txt

head -c 95 "$root/examples/worked.sheet" > short.sheet
wants 5 "short.sheet: sheet refused 8: 95 bytes: a sheet with 2 processes and 3 records has 96" <<< "sheet refused 8"
try "a sheet that is cut" "$run" short.sheet
head -c 60000 /dev/zero > long.sheet
wants 5 "long.sheet: sheet refused 8: no process: a model has at least main" <<< "sheet refused 8"
try "a file that is far too long" "$run" long.sheet
printf 'heads goods\nprocesses main\nmain:\n    wait gods\n    hold ten\n' > wrong.txt
mistakes=("wrong.txt:4:10: error: no head, process or link is named 'gods'; did you mean 'goods'?"
    "wrong.txt:5:10: error: expected a whole number, found 'ten'")
wants 5 "${mistakes[@]}" < /dev/null
try "a text with mistakes" "$run" wrong.txt

# ---- output that is lost

wants 6 "./run: output lost: no space left on the disk" < /dev/null
try "a full disk" to /dev/full "$run" shop.txt
wants 6 "./run: output lost: standard output is closed" < /dev/null
try "no standard output" closed "$run" shop.txt
wants 6 "./run: output lost: the reader has closed the pipe" < /dev/null
try "a closed pipe" unread "$run" loop.txt
wants 6 "./sheet: output lost: no space left on the disk" < /dev/null
try "a sheet shown to a full disk" to /dev/full "$sheet" show shop.sheet
wants 6 "./sheet: output lost: standard output is closed" < /dev/null
try "a sheet shown to nobody" closed "$sheet" show shop.sheet
wants 6 "./sheet: /dev/full cannot be written: no space left on the disk" < /dev/null
try "a sheet built on a full disk" "$sheet" build shop.txt /dev/full
wants 6 "./sheet: no/such.sheet cannot be written: no such folder" < /dev/null
try "a sheet built in no folder" "$sheet" build shop.txt no/such.sheet

# ---- wrong use

usage=$("$run" --help)
wants 0 <<< "$usage"
try "help" "$run" -h
wants 2 "./run: which model?" "$usage" < /dev/null
try "no model" "$run"
wants 2 "./run: one model at a time: a b" "$usage" < /dev/null
try "two models" "$run" a b
wants 2 "./run: no such option: --fast" "$usage" < /dev/null
try "an option that is none" "$run" --fast shop.txt
wants 2 "./run: no such file: none.txt" < /dev/null
try "no such file" "$run" none.txt
wants 2 "./run: . is a directory" < /dev/null
try "a directory" "$run" .
wants 2 "./sheet: no such file: none.txt" < /dev/null
try "check of no such file" "$sheet" check none.txt
wants 2 "./sheet: . is a directory" < /dev/null
try "show of a directory" "$sheet" show .
usage=$("$sheet" --help)
wants 2 "$usage" < /dev/null
try "a command that is none" "$sheet" make shop.txt
try "build without a sheet" "$sheet" build shop.txt
cp shop.txt mine.txt
wants 2 "./sheet: mine.txt is a text: it is not overwritten" < /dev/null
try "a text is not overwritten" "$sheet" build shop.txt mine.txt
wants 1 "shop.txt: error: this is no sheet: it is a text, and './sheet build shop.txt SHEET' makes a sheet of it" < /dev/null
try "show of a text" "$sheet" show shop.txt
wants 1 "shop.sheet:1:1: error: this is no text, and perhaps a sheet: './sheet show shop.sheet' prints one as a text" < /dev/null
try "check of a sheet" "$sheet" check shop.sheet
wants 1 "${mistakes[@]}" < /dev/null
try "build of a text with mistakes" "$sheet" build wrong.txt wrong.sheet

# ---- from anywhere

mkdir -p "a folder/b"
ln -s "$run" "a folder/simulate"
ln -s "$sheet" "a folder/sheet"
cp shop.txt "a folder/b/my model.txt"
wants 0 <<< "my model.txt: no mistakes; 2 heads, 2 processes, 2 links, 6 records"
try "a link, another folder, a name with spaces" from "a folder/b" ../sheet check "my model.txt"
wants 4 "my model.txt:9: refused 3 at tick 12, record 5: bench could not do 'into first(goods_in) done': goods_in was empty" \
    "  ask first: 'if empty goods_in goto LABEL'" < <("$root/target/bin/run_print" < shop.sheet)
try "a run by a link" from "a folder/b" ../simulate "my model.txt"

close commands
