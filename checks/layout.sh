#!/bin/sh
# The layout that the repository keeps: the one line of HANDLES, each crate in crates.txt and in the documents, no file
# named in a document that isn't there, no source file of 800 lines or more, and looks at a table without a seat in the
# ticket lock alone.
cd "$(dirname "$0")/.." || exit 1
wrong=0

say() {
    echo "layout: $1"
    wrong=1
}

[ "$(cat HANDLES)" = "Handles allowed: Threads, Wait, Net." ] || say "HANDLES isn't its one line"

for crate in crates/*/; do
    name=$(basename "$crate")
    grep -q "^$name:" crates.txt || say "$name isn't in crates.txt"
    for page in README.md docs/ARCHITECTURE.md docs/PROOFS.md; do
        grep -q "\`$name\`" "$page" || say "$page doesn't name $name"
    done
done

# A page names a file by its path from the top, from crates/, or from the folder of the crate that it speaks of.
for page in README.md docs/*.md; do
    for path in $(grep -o '`[A-Za-z0-9_./-]*/[A-Za-z0-9_.-]*\.[a-z]*`' "$page" | tr -d '`' | sort -u); do
        case $path in */out/*) continue ;; esac
        for found in "$path" "crates/$path" crates/*/"$path"; do
            [ ! -e "$found" ] || continue 2
        done
        say "$page names $path, which isn't there"
    done
done

for source in crates/*/src/*.rt crates/*/src/*/*.rt; do
    [ -e "$source" ] || continue
    lines=$(wc -l < "$source")
    [ "$lines" -lt 800 ] || say "$source has $lines lines"
done

# A look without a seat tells nothing, so no contract can refuse one: the lock has it before it draws, and nobody else.
stray=$(find crates/*/src -name '*.rt' -exec awk '
    / fn / || /^fn / { named = $0; sub(/.*fn /, "", named) }
    /peek\([^)]/ && !(FILENAME == "crates/turn_lock/src/turns.rt" && named ~ /^draw[<(]/) { print FILENAME " line " FNR }
' {} +)
[ -z "$stray" ] || say "a look without a seat: $stray"

exit "$wrong"
