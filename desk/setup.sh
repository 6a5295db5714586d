# shellcheck shell=bash
# What ./run and ./sheet share: the desk's tool and the engine are built anew only when their sources changed, by content and not by date.
# The caller sets root, the repository, and self, its own name in messages.
: "${root:?}" "${self:?}"

desk=$root/target/desk/release/desk
engine=$root/target/bin/run_print

say() { printf '%s: %s\n' "$self" "$*" >&2; }

# One sum over the names and contents of the files in these folders, without what rt makes there.
sum_of() {
    (cd "$root" && find "$@" -type f ! -path '*/must-fail/*' ! -path 'crates/*/out/*' -print0 | LC_ALL=C sort -z | xargs -0 sha256sum | sha256sum)
}

# The crates that the engine is made of, each after those that it is built on: what run_print's line in crates.txt names, but for the kit's.
engine_crates() {
    local known name
    known=" $(sed -n 's/^\([a-z0-9_]*\)[^:]*:.*/\1/p' "$root/crates.txt" | tr '\n' ' ')"
    for name in $(sed -n 's/^run_print[^:]*://p' "$root/crates.txt") run_print; do
        case $known in *" $name "*) echo "$name" ;; esac
    done
}

engine_sum() {
    local crates
    mapfile -t crates < <(engine_crates)
    sum_of "${crates[@]/#/crates/}"
}

# Whether a program was built from sources of this sum, and is the one that was built.
is_built() { [ -x "$1" ] && [ "$(cat "$1.built" 2> /dev/null)" = "$2 $(sha256sum < "$1")" ]; }

note_built() { echo "$2 $(sha256sum < "$1")" > "$1.built"; }

# One build at a time: a second caller waits for the first.
lock() {
    mkdir -p "$root/target" && exec 9> "$root/target/lock" || exit 1
    if command -v flock > /dev/null && ! flock -n 9; then
        say "waiting for another build .."
        flock 9
    fi
}

unlock() { exec 9>&-; }

# A command that a build needs.
need() {
    command -v "$1" > /dev/null && return
    say "$1 is not on the path: $2"
    exit 1
}

# Standard output that is closed would be lost without a word.
need_output() {
    [ -e /dev/fd/1 ] && return
    say "output lost: standard output is closed"
    exit 6
}

# A build that failed: the end of what it wrote.
not_built() {
    say "$1 could not be built; the end of $2:"
    tail -n 12 "$2" >&2
    exit 1
}

setup_desk() {
    local sum log=$root/target/desk.log
    sum=$(sum_of desk)
    is_built "$desk" "$sum" && return
    need cargo "Rust builds the desk's tool"
    lock
    if ! is_built "$desk" "$sum"; then
        say "building the desk's tool, once .."
        cargo build --quiet --release --offline --manifest-path "$root/desk/Cargo.toml" --target-dir "$root/target/desk" > "$log" 2>&1 ||
            not_built "the desk's tool" "$log"
        note_built "$desk" "$sum"
    fi
    unlock
}

# Says which crate is being proved: rt takes them in their order, and says nothing of those that it has proved before.
progress() {
    local crates line at=0 said=-1 i
    mapfile -t crates < <(engine_crates)
    while [ "$at" -lt "${#crates[@]}" ]; do
        if [ "$at" -ne "$said" ]; then say "proving $((at + 1)) of ${#crates[@]}: ${crates[at]} .."; fi
        said=$at
        IFS= read -r line || break
        [[ $line =~ ^crate\ ([a-z0-9_]+):\  ]] || continue
        for ((i = at; i < ${#crates[@]}; i++)); do
            if [ "${crates[i]}" = "${BASH_REMATCH[1]}" ]; then at=$((i + 1)); fi
        done
    done
    cat > /dev/null
}

# rt run proves and builds the engine, and runs it, here on no input; the copy stays as it is until the sources change.
build_engine() {
    (cd "$root/crates/run_print" && { rt run < /dev/null > /dev/null; } 2>&1) || return
    mkdir -p "$root/target/bin" && cp -f "$root/crates/run_print/out/run_print" "$engine.new" && mv -f "$engine.new" "$engine"
}

setup_engine() {
    local sum log=$root/target/engine.log
    sum=$(engine_sum)
    is_built "$engine" "$sum" && return
    need rt "Rattle's kit proves and builds the engine"
    lock
    if ! is_built "$engine" "$sum"; then
        say "proving and building the engine, once: five to ten minutes from nothing, less after a change"
        say "(the prover's own words go to $log)"
        build_engine | tee "$log" | progress
        [ "${PIPESTATUS[0]}" -eq 0 ] || not_built "the engine" "$log"
        note_built "$engine" "$sum"
        say "the engine is proved and built"
    fi
    unlock
}
