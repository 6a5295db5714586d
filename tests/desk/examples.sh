#!/usr/bin/env bash
# The examples and the pages that show them: every text of examples/ has no mistake and runs to its end, the worked sheet is that of its
# text, and docs/SHEETS.md has the statements of the table. The last line is 'examples: N passed, M failed'.
set -u
root=$(cd "$(dirname "$0")/../.." && pwd)
. "$root/tests/try.sh"

for text in "$root"/examples/*.txt; do
    name=$(basename "$text")
    wants 0 < /dev/null
    try "$name has neither mistake nor warning" to /dev/null "$root/sheet" check "$text"
    try "$name finishes" to /dev/null "$root/run" "$text"
done

try "the worked text builds the worked sheet" to /dev/null "$root/sheet" build "$root/examples/worked.txt" worked.sheet
try "byte for byte" cmp worked.sheet "$root/examples/worked.sheet"

# Each line between two marks on the page must be the tool's.
sed -n '/^<!-- .\/sheet words -->$/,/^<!-- to here -->$/p' "$root/docs/SHEETS.md" | sed '1,2d;$d' | sed '$d' > words
wants 0 < words
try "docs/SHEETS.md has the statements of the table" "$root/sheet" words

close examples
