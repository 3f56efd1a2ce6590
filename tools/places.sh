#!/usr/bin/env bash
# Counts, in crates/*/src of the checkout that is named (this one, if none is), the places that docs/DESIGN-PASS.md speaks of, and the
# answers and invariants in crates/*/proofs. A count is a hint where to look: the page says what was read there.
cd "${1:-$(dirname "$0")/..}" || exit 1
src() { find crates/*/src -name '*.rt' | sort; }
echo "1a enums: $(grep -hE '^\s*(pub(\(crate\))? )?enum ' $(src) | wc -l)"
echo "1b fields ok, good, wrong, number, skip: $(grep -hE '^\s*(pub(\(crate\))? )?(ok|good|wrong|number|skip): (bool|u8),' $(src) | wc -l)"
echo "1c 'Refused(': $(grep -hoE 'Refused\(' $(src) | wc -l)"
echo "1d constants for kinds or none: $(grep -hE '^(pub(\(crate\))? )?const (UNSIZED|SIZED|QUIETED|RULED|FAULTED|STARTED|TESTING|CLOSED|WRONG|LOST|NOT_BEGUN|THROUGH|FAILED|ASLEEP|NOWHERE|NO_PAIR|NO_STATE|ANY|UNHINTED|FROM_TEST)\b' $(src) | wc -l)"
echo "2 function names that two files or more declare: $(for f in $(src); do grep -hoE '^(pub(\(crate\))? )?(extern "C" )?fn [a-z_0-9]+' $f | sed 's/.*fn //' | sort -u; done | sort | uniq -d | wc -l)"
echo "3 while and loop: $(grep -hE '^\s*(while |loop \{)' $(src) | wc -l) of which while let: $(grep -hE '^\s*while let ' $(src) | wc -l)"
echo "4 hand-written: $(grep -hE 'fn (same|compare|copy|copy_first|copy_choices|copy_notes|wide|wide16|wide32|more|narrow|bit_of|least|larger|clipped|put_number)\b' $(src) | wc -l)"
echo "5a functions of seven parameters or more: $(python3 - $(src) <<'P'
import re, sys
n = 0
for f in sys.argv[1:]:
    t = open(f, encoding="utf-8").read()
    for m in re.finditer(r"\bfn \w+(?:<[^>]*>)?\(", t):
        d, i, k, p = 1, m.end(), 0, 0
        start = i
        while d:
            c = t[i]
            if c in "([{<" and not (c == "<" and False): d += c in "([{"; k += c == "<"
            if c in ")]}": d -= 1
            if c == ">": k -= 1
            i += 1
        args = [a for a in re.split(r",(?![^<\[(]*[>\])])", t[start:i - 1]) if a.strip()]
        n += len(args) >= 7
print(n)
P
)"
echo "5b lifetimes named on functions: $(grep -hE "fn [a-z_]+<'" $(src) | wc -l)"
echo "6 parameters that are arrays: $(grep -hoE '[a-z_]+: &('"'"'[a-z]+ )?(mut )?\[u(8|16|32|64); [0-9A-Z_]+\]' $(src) | wc -l)"
echo "7 'if x == number { .. return' steps: $(grep -hE -A1 '^\s*if [a-z._]+ == [0-9]+ \{' $(src) | grep -cE '^\s*return')"
echo "8 Answers.antt: $(find crates/*/proofs -name Answers.antt | wc -l), Invariants.antt: $(find crates/*/proofs -name Invariants.antt | wc -l), lines of both: $(cat $(find crates/*/proofs -name Answers.antt -o -name Invariants.antt) | wc -l)"
