#!/bin/sh
# Measures everything in one run and prints one page: the date, the kind of machine, and each table of the program.
#
#   bench/results.sh > bench/RESULTS.md
#
# Arguments go to the program: with --plain, --making, --walking or --records the page has that part alone.
set -eu
cd "$(dirname "$0")"
cargo build --offline --release --quiet

cores=$(getconf _NPROCESSORS_ONLN)
model=$(sed -n 's/^model name[^:]*: *//p' /proc/cpuinfo | head -n 1)
begun=$(date +%s)
measured=$(mktemp)
trap 'rm -f "$measured"' EXIT
cargo run --offline --release --quiet -- "$@" > "$measured"
minutes=$((($(date +%s) - begun + 59) / 60))

cat << END
# Times

- date: $(date -u +%Y-%m-%d)
- machine: $cores cores, $(uname -m), $model
- made by: \`bench/results.sh${*:+ $*}\`, one run of at most $minutes min

Times differ from machine to machine. Ratios are of this run, in which both sides take turns; each time is that of the
quickest of several batches, which other work on the machine disturbs least.

"Plain Rust" is the same operation without proofs, in \`bench/src/\`. Nodes are those of the search for refutations; the
library's and plain Rust's are counted apart.
END

# A table begins with an empty line and its title; the first one has none.
awk '
    function begin(title) {
        if (begun) print "```"
        printf "\n## %s\n\n```text\n", toupper(substr(title, 1, 1)) substr(title, 2)
        begun = 1
    }
    NR == 1 && NF { begin("operations, beside plain Rust") }
    NF == 0 { titled = 1; next }
    titled { titled = 0; begin($0); next }
    { sub(/ +$/, ""); print }
    END { print "```" }
' "$measured" | fold -s -w 120
