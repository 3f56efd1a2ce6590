#!/usr/bin/env python3
"""Respells the repository's own definitions and laws: words of lower camel case to snake case.

usage: python3 tools/spelling.py [ROOT]

Run once, after /opt/rattle/port/port.py. It goes through specs/, proofs/, the clauses of src/ and the must-fail edits of
every crate, and through the names between backquotes in README.md and docs/. Functions of src/, exported names, strings,
inputs and outputs have no such names and stay. It stops, and writes nothing, where two names would fall together.
"""

import pathlib
import re
import sys

TOKEN = re.compile(r"[^\s(){}\[\],;.«»⟨⟩\"|`]+")
PART = re.compile(r"[a-z][a-z0-9]*(?:[A-Z][a-z0-9']*)+\Z")
# what the library's names are today
LIBRARY = {"getD": "get_or"}


# Laws that would get the name of the definition that they speak of.
LAWS = {
    "model/specs/laws/WalkLaw.antt": "is_later",
    "sheet/specs/laws/CommandLaw.antt": "size_in",
    "mutation/proofs/OperateLaw.antt": "run_on",
}


def respelled_part(part):
    if part in LIBRARY:
        return LIBRARY[part]
    if not PART.match(part):
        return part
    return re.sub(r"[A-Z]", lambda m: "_" + m.group().lower(), part)


def respelled(token):
    return "-".join(respelled_part(part) for part in token.split("-"))


def files(root):
    for crate in sorted((root / "crates").iterdir()):
        for folder, ending in (("specs", "*.antt"), ("proofs", "*.antt"), ("src", "*.rt"), ("must-fail", "*.edit")):
            for path in sorted((crate / folder).rglob(ending)):
                yield path


def pages(root):
    yield root / "README.md"
    yield from sorted((root / "docs").rglob("*.md"))


def main():
    root = pathlib.Path(sys.argv[1] if len(sys.argv) > 1 else ".")
    texts = {path: path.read_text(encoding="utf-8") for path in files(root)}
    for name, law in LAWS.items():
        path = root / "crates" / name
        texts[path] = TOKEN.sub(lambda m: law + "_lem" if m.group() == law else m.group(), texts[path])
    seen = set()
    for text in texts.values():
        seen.update(TOKEN.findall(text))
    turned = {token: respelled(token) for token in seen if respelled(token) != token}
    into = {}
    for old, new in turned.items():
        into.setdefault(new, []).append(old)
    fallen = [(new, olds) for new, olds in sorted(into.items()) if len(olds) > 1 or new in seen]
    allowed = {"get_or"}
    fallen = [(new, olds) for new, olds in fallen if new not in allowed and new not in ALSO_LOCAL]
    if fallen:
        for new, olds in fallen:
            print(f"{', '.join(olds)}: {new} is taken")
        raise SystemExit(1)
    changed = 0
    for path, text in texts.items():
        new = TOKEN.sub(lambda m: respelled(m.group()), text)
        if new != path.read_text(encoding="utf-8"):
            path.write_text(new, encoding="utf-8")
            changed += 1
    for path in pages(root):
        text = path.read_text(encoding="utf-8")
        new = re.sub(r"`[^`\n]*`", lambda q: TOKEN.sub(lambda m: turned.get(m.group(), m.group()), q.group()), text)
        if new != text:
            path.write_text(new, encoding="utf-8")
            changed += 1
    print(f"spelling: {len(turned)} names, {changed} files")


# Names that a function of src/, a clause or a private law has too: a definition and a function are told apart by where
# they stand, and the others are never cited by one file.
ALSO_LOCAL = set(
    """
    add_press all_reached choice_at choices_at choices_of explained_by fetch_at first_giving first_high first_over
    input_at is_cut is_open is_other item_in meet_from open_pairs open_slots operand_of or_else output_of phase_of
    place_in place_of refusal_of row_of rule_output rule_target rules_at size_in slot_of some_at suited_by taken_by
    target_of tests_at tests_of unruled_choices up_to waking_slots
    """.split()
)

if __name__ == "__main__":
    main()
