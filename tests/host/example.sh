#!/usr/bin/env bash
# The example of a C host, target/host_example: exit status, standard output and standard error for each end. The last line is
# 'example: N passed, M failed'.
set -u
root=$(cd "$(dirname "$0")/../.." && pwd)
. "$root/tests/try.sh"
host=$root/target/host_example

# A sheet of main alone with these statements.
sheet() {
    printf 'processes main\nmain:\n' > model.txt
    printf '    %s\n' "$@" >> model.txt
    "$root/sheet" build model.txt model.sheet > build.log 2>&1
}

wants 0 < "$root/crates/run_print/stdout"
try "finished" "$host" "$root/examples/worked.sheet"

sheet "again: hold 0" "goto again"
wants 3 "host: model.sheet: not finished: the trace is full after 4096 steps" < <(yes "0 1 1" | head -n 4096 && echo "full after 4096")
try "full" "$host" model.sheet

sheet "hold 5" "out none"
wants 4 "host: model.sheet: step 2 was refused: an operand is of the wrong kind, or none where that will not do" \
    "host: the step before it: time 0, process 1, record 1" < <(printf '0 1 1\nrefused 3 after 1\n')
try "refused 3" "$host" model.sheet
sheet passivate
wants 4 "host: model.sheet: step 1 was refused: nobody would be left to go on" <<< "refused 4 after 0"
try "refused 4" "$host" model.sheet
sheet "hold 1099511627776"
wants 4 "host: model.sheet: step 1 was refused: a time would be above 1,099,511,627,775" <<< "refused 5 after 0"
try "refused 5" "$host" model.sheet
sheet "accum 64 by -1000001"
wants 4 "host: model.sheet: step 1 was refused: an accumulator's rate would pass 1,000,000" <<< "refused 7 after 0"
try "refused 7" "$host" model.sheet

printf 'heads q\nprocesses main\nlinks c1..c513\nmain:\n    into c1..c513 q\n' > model.txt
"$root/sheet" build model.txt model.sheet > build.log 2>&1
wants 4 "host: model.sheet: step 513 was refused: a queue would have 513 members" \
    "host: the step before it: time 0, process 2, record 512" < <(seq -f '0 2 %.0f' 512 && echo "refused 10 after 512")
try "refused 10" "$host" model.sheet

head -c 95 "$root/examples/worked.sheet" > short.sheet
wants 5 "host: short.sheet: not a sheet: check lengths, limits, operands and unused fields" <<< "sheet refused 8"
try "no sheet" "$host" short.sheet
: > empty.sheet
wants 5 "host: empty.sheet: not a sheet: check lengths, limits, operands and unused fields" <<< "sheet refused 8"
try "an empty file" "$host" empty.sheet

wants 2 "usage: host SHEET" < /dev/null
try "no argument" "$host"
wants 2 "host: none.sheet: No such file or directory" < /dev/null
try "no such file" "$host" none.sheet
wants 2 "host: .: Is a directory" < /dev/null
try "a directory" "$host" .
wants 6 "host: output lost: No space left on device" < /dev/null
try "a full disk" to /dev/full "$host" "$root/examples/worked.sheet"
wants 6 "host: output lost: Bad file descriptor" < /dev/null
try "no standard output" closed "$host" "$root/examples/worked.sheet"

close example
