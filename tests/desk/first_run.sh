#!/usr/bin/env bash
# The first run, and when it is one again: a copy of the scripts with small crates and a stand-in for the prover. The last line is
# 'first run: N passed, M failed'.
set -u
root=$(cd "$(dirname "$0")/../.." && pwd)
. "$root/tests/try.sh"

# The desk's tool is taken over, with the note of what it was built from; the engine is not.
"$root/sheet" words > /dev/null 2>&1
mkdir -p copy/target/desk/release tools
cp -r "$root/run" "$root/sheet" "$root/desk" copy
cp "$root"/target/desk/release/desk{,.built} copy/target/desk/release
cp "$root/examples/worked.sheet" worked.sheet
printf '%s\n' '# by level' 'words:' 'ring:' 'calls: words ring' 'run: words ring' 'run_print: words ring run itoa' 'host staticlib: words run' > copy/crates.txt
for crate in words ring calls run run_print; do
    mkdir -p "copy/crates/$crate/src" "copy/crates/$crate/must-fail"
    echo "// $crate" > "copy/crates/$crate/src/lib.rt"
done

# Commands that the scripts may use, and a prover that says what rt says: nothing of words, which it has proved before.
for tool in bash cat cp dirname env find flock mkdir mv readlink sed sha256sum sleep sort tail tee tr xargs; do
    ln -s "$(command -v "$tool")" "tools/$tool"
done
cat > tools/rt <<EOF2
#!/usr/bin/env bash
echo "\$* in \${PWD##*/}" >> "$work/calls"
exec 3>&1 >&2
echo "a word of the prover's own"
[ ! -e "$work/broken" ] || { echo "src/lib.rt:3: error: not proved" && exit 1; }
echo "crate ring: modules loaded=2 checked=1"
[ ! -e "$work/slow" ] || sleep 1
echo "library ring: modules loaded=1 checked=0"
echo "crate run: modules loaded=3 checked=1"
mkdir -p out
cat "$root/crates/run_print/out/run_print" > out/run_print
chmod +x out/run_print
echo "crate run_print: modules loaded=4 checked=2"
echo "sheet refused 8" >&3
EOF2
ln -s "$(command -v chmod)" tools/chmod
chmod +x tools/rt
run() { PATH=$work/tools copy/run "$@"; }

first=("./run: proving and building the engine, once: five to ten minutes from nothing, less after a change"
    "./run: (the prover's own words go to $work/copy/target/engine.log)"
    "./run: proving 1 of 4: words ..")
built=("${first[@]}" "./run: proving 3 of 4: run .." "./run: proving 4 of 4: run_print .." "./run: the engine is proved and built")

# How often the prover has been called must be so.
called() {
    local times=0
    [ ! -e calls ] || times=$(grep -cx 'run in run_print' calls)
    wants 0 < /dev/null
    try "$1" test "$times" -eq "$2"
}

printf 'processes main\nmain:\n    hold ten\n' > wrong.txt
wants 5 "wrong.txt:3:10: error: expected a whole number, found 'ten'" < /dev/null
try "mistakes are told before the engine is built" run wrong.txt
wants 2 "./run: no such file: none.txt" < /dev/null
try "a missing file is told before the engine is built" run none.txt
called "nothing was built for them" 0

wants 0 "${built[@]}" < "$root/crates/run_print/stdout"
try "the first run" run worked.sheet
called "it called the prover" 1
wants 0 < /dev/null
try "the prover's own words stand in a file" grep -qx "a word of the prover's own" copy/target/engine.log

wants 0 < "$root/crates/run_print/stdout"
try "the second run says nothing" run worked.sheet
find copy/crates copy/crates.txt copy/desk -exec touch {} +
try "newer dates are no change" run worked.sheet
echo "// more" >> copy/crates/calls/src/lib.rt
mkdir -p copy/crates/ring/out
echo "more" > copy/crates/ring/out/kept
echo "edit" > copy/crates/run/must-fail/edit
try "a crate that the engine has not, what rt keeps, and an edit that must fail, are no change" run worked.sheet
called "so the prover was not called again" 1

echo "// more" >> copy/crates/ring/src/lib.rt
wants 0 "${built[@]}" < "$root/crates/run_print/stdout"
try "a changed source is built" run worked.sheet
echo "// new" > copy/crates/run/src/new.rt
try "a new file is built" run worked.sheet
echo x >> copy/target/bin/run_print
try "an engine that is not the one that was built is built again" run worked.sheet
called "three more calls" 4

echo "// worse" >> copy/crates/run/src/lib.rt
touch broken
wants 1 "${first[@]}" "./run: the engine could not be built; the end of $work/copy/target/engine.log:" \
    "a word of the prover's own" "src/lib.rt:3: error: not proved" < /dev/null
try "an engine that is not proved" run worked.sheet
try "it is not taken for built" run worked.sheet
rm broken
touch slow
wants 0 < <(cat "$root"/crates/run_print/stdout "$root"/crates/run_print/stdout)
both() {
    run worked.sheet > one 2> one.err &
    run worked.sheet > two 2> two.err
    wait
    cat one two
}
try "two at a time" both
wants 0 <<< "./run: waiting for another build .."
try "the second says that it waits" eval 'cat one.err two.err | grep waiting'
called "were built once" 7

mv tools/rt tools/not_rt
echo "// again" >> copy/crates/run/src/lib.rt
wants 1 "./run: rt is not on the path: Rattle's kit proves and builds the engine" < /dev/null
try "no kit" run worked.sheet
echo >> copy/desk/src/main.rs
wants 1 "./run: cargo is not on the path: Rust builds the desk's tool" < /dev/null
try "no cargo" run worked.sheet

printf '#!/usr/bin/env bash\necho "error: a word of the compiler" >&2\nexit 101\n' > tools/cargo
chmod +x tools/cargo
wants 1 "./run: building the desk's tool, once .." "./run: the desk's tool could not be built; the end of $work/copy/target/desk.log:" \
    "error: a word of the compiler" < /dev/null
try "a desk that does not build" run worked.sheet

close "first run"
