# shellcheck shell=bash
# What .ci/run and .ci/quick share; both source it at the root of the repository. Commands are added up in passed and failed.
passed=0
failed=0

# Runs a command, shows what it prints, and adds up its closing line 'N passed, M failed', behind which more may stand in parentheses.
# A command that fails or closes without such a line counts as a failure. So does each must-fail edit that rt ci calls bad, since it shows
# nothing; rt ci counts those on its line 'rt: ok'.
tally() {
    local log status line
    log=$(mktemp)
    "$@" 2>&1 | tee "$log"
    status=${PIPESTATUS[0]}
    line=$(grep -E '(^|: )[0-9]+ passed, [0-9]+ failed( \(.*\))?$' "$log" | tail -n 1)
    if [[ $line =~ ([0-9]+)\ passed,\ ([0-9]+)\ failed ]]; then
        passed=$((passed + BASH_REMATCH[1]))
        failed=$((failed + BASH_REMATCH[2]))
        if [ "$status" -ne 0 ] && [ "${BASH_REMATCH[2]}" -eq 0 ]; then failed=$((failed + 1)); fi
    else
        failed=$((failed + 1))
    fi
    line=$(grep -E '^rt: ok' "$log" | tail -n 1)
    if [[ $line =~ ,\ ([0-9]+)\ bad ]]; then failed=$((failed + BASH_REMATCH[1])); fi
    rm -f "$log"
}

# Runs a command that is one test, and closes as a test does: 'NAME: 1 passed, 0 failed'.
one() {
    local name=$1
    shift
    if "$@"; then
        echo "$name: 1 passed, 0 failed"
    else
        echo "$name: 0 passed, 1 failed"
        return 1
    fi
}

# The C edge: its programs build without a warning, as C and, for the header, as C++.
edge() {
    local strict=(-Wall -Wextra -Werror -Iinclude) lib=crates/host/out/libhost.a
    rm -f target/host_*
    (cd crates/host && rt lib) > target/host.log 2>&1 &&
        cc -O2 "${strict[@]}" examples/host.c "$lib" -o target/host_example &&
        cc -O2 "${strict[@]}" tests/host/edges.c "$lib" -o target/host_edges &&
        cc -O2 "${strict[@]}" tests/host/serve.c "$lib" -o target/host_guard &&
        cc -g -fsanitize=address,undefined "${strict[@]}" tests/host/serve.c "$lib" -o target/host_zones &&
        cc -x c++ -fsyntax-only "${strict[@]}" include/nodbrize.h
}

# The scripts in bash, by shellcheck, which a fresh machine may not have.
scripts() {
    command -v shellcheck > /dev/null || { apt-get update && apt-get install -y shellcheck; } > target/shellcheck.log 2>&1
    shellcheck -x run sheet test desk/setup.sh .ci/* bench/run tests/*.sh tests/*/*.sh
}

# Checks the page of levels, builds the tests and runs them on the programs that stand in out/: so many calls, and sheets of runs, of the
# printing program, of the C edge, and of the desk.
run_tests() {
    local calls=$1 runs=$2 prints=$3 hosts=$4 shown=$5
    local tests=target/tests/release/nodbrize_tests desk=target/desk/release/desk
    mkdir -p target
    tally one levels python3 docs/levels.py --check
    tally one scripts scripts
    tally python3 tests/trace/operators.py
    cargo build --quiet --release --manifest-path tests/Cargo.toml --target-dir target/tests || failed=$((failed + 1))
    tally "$tests" self
    tally "$tests" mutations
    tally "$tests" calls crates/calls/out/calls --count "$calls"
    tally "$tests" runs crates/calls/out/calls --sheets "$runs"
    tally "$tests" print crates/run_print/out/run_print --sheets "$prints"
    # the desk: ./sheet builds it, ./run builds its engine
    tally one desk ./sheet words
    tally bash tests/desk/first_run.sh
    tally bash tests/desk/commands.sh
    tally bash tests/desk/seldom.sh
    tally bash tests/desk/examples.sh
    tally python3 tests/desk/pages.py
    tally "$tests" mistakes "$desk" tests/desk/mistakes.txt
    tally "$tests" sheets "$desk" --sheets "$shown"
    tally "$tests" ends "$desk" target/bin/run_print --sheets "$prints"
    # the C edge, sheets and traces between guards
    tally one edge edge
    tally target/host_edges examples/worked.sheet
    tally bash tests/host/example.sh
    tally "$tests" host target/host_guard --sheets "$hosts" -- guard
    tally "$tests" host target/host_zones --sheets "$hosts" --seed 2 -- zones
}

# The last line, and the exit status.
sum_up() {
    echo "$passed passed, $failed failed"
    [ "$failed" -eq 0 ]
}
