#!/bin/sh
# Runs the built licence_lint to each of its ends, and compares them with checks/lint.cases; and runs it on the examples, and
# compares the advice with the text that stands beside them, `expected.lint`. The options of an example with a
# make_options.py are written out by it.
cd "$(dirname "$0")/.." || exit 1
program=${1:-$(pwd)/crates/licence_lint/out/licence_lint}
wrong=0

[ -x "$program" ] || { echo "lint: $program isn't built: rt ci builds it"; exit 1; }
python3 -B checks/ends.py "$program" checks/lint.cases || wrong=1

# Whether the program ends with this status and writes that text on an example, with these further words.
lints() {
    example=$1
    status=$2
    shift 2
    made=$(mktemp -d) || exit 1
    options=$example/options
    if [ -e "$example/make_options.py" ]; then
        options=$made/options
        python3 -B "$example/make_options.py" <"$example/rules" >"$options" || wrong=1
    fi
    "$program" "$example/licence" "$options" "$@" >"$made/written"
    [ $? -eq "$status" ] || { echo "lint: $example: not status $status"; wrong=1; }
    diff "$example/expected.lint" "$made/written" || { echo "lint: $example/expected.lint: not what is written"; wrong=1; }
    rm -rf "$made"
}

lints examples/first 0
lints examples/studio 0
lints examples/university 1
lints examples/site 1 --expires-within 30 --on 15-dec-2026
exit "$wrong"
