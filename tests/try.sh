# shellcheck shell=bash
# What the tests in bash share: a folder of their own, and commands compared by exit status, standard output and standard error.
passed=0 failed=0
work=$(mktemp -d)
trap 'rm -rf "$work"' EXIT
cd "$work" || exit 2

# What the next commands have to do: this exit status, these lines on standard error, and on standard output what stands on standard input.
wants() {
    status=$1
    cat > "$work/.out"
    : > "$work/.err"
    [ $# -eq 1 ] || printf '%s\n' "${@:2}" > "$work/.err"
}

# Tries a command.
try() {
    local name=$1 got
    "${@:2}" > "$work/.got.out" 2> "$work/.got.err" < /dev/null
    got=$?
    if [ "$got" -eq "$status" ] && cmp -s "$work/.out" "$work/.got.out" && cmp -s "$work/.err" "$work/.got.err"; then
        passed=$((passed + 1))
        return
    fi
    failed=$((failed + 1))
    echo "failed: $name: wanted exit status $status, got $got"
    diff "$work/.out" "$work/.got.out" | head -n 10
    diff "$work/.err" "$work/.got.err" | head -n 20
}

# The same with standard output elsewhere, closed, or a pipe that nobody reads; and from a folder.
to() { "${@:2}" > "$1"; }
closed() { "$@" >&-; }
unread() {
    "$@" | true
    return "${PIPESTATUS[0]}"
}
from() { (cd "$1" && "${@:2}"); }

# The closing line, and the exit status.
close() {
    echo "$1: $passed passed, $failed failed"
    [ "$failed" -eq 0 ]
}
