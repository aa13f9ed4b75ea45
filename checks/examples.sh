#!/bin/sh
# Replays and checks each example with the built program, and audits and sums its log where it has one, and compares
# what it writes with the texts that stand beside it, `expected.replay`, `expected.check` and `expected.report`, and
# where there is a log `expected.audit` and `expected.usage`; and looks that the README shows the first example as it is. An
# example with a make_options.py has `rules` in the place of its options, and the script writes out both these and the text
# that `check` shows of them.
top=$(cd "$(dirname "$0")/.." && pwd)
program=${1:-$top/crates/licence_main/out/licence_main}
wrong=0

[ -x "$program" ] || { echo "examples: $program isn't built: rt ci builds it"; exit 1; }
made=$(mktemp -d) || exit 1
trap 'rm -rf "$made"' EXIT

# Whether the program writes the text of the file when it is given these words.
writes() {
    expected=$1
    shift
    "$program" "$@" | diff "$expected" - || { echo "$expected: not what is written"; wrong=1; }
}

for example in "$top"/examples/*/; do
    [ -e "$example/licence" ] || continue
    cd "$example" || exit 1
    options=options checked=expected.check
    if [ -e make_options.py ]; then
        options=$made/options checked=$made/expected.check
        python3 -B make_options.py <rules >"$options" || exit 1
        python3 -B make_options.py <expected.check >"$checked" || exit 1
    fi
    set -- licence "$options" script
    [ ! -e more ] || set -- "$@" more
    writes expected.replay replay "$@"
    writes expected.report report "$@"
    writes "$checked" check licence "$options"
    shift 3
    [ -e log ] || continue
    writes expected.audit audit licence "$options" log "$@"
    writes expected.usage usage licence "$options" log "$@"
done

cd "$top/examples/first" || exit 1
cat licence options script expected.replay | while IFS= read -r line; do
    grep -qxF "    $line" "$top/README.md" || { echo "README.md lacks the line: $line"; exit 1; }
done || wrong=1
exit "$wrong"
