#!/usr/bin/env python3
"""Spells the names of this repository's definitions and lemmas as Rattle's library does: words in snake case, a dash between two names.

Run at the top, once, after port.py. It turns camel case words of specs/, proofs/, ghost items, clauses and must-fail edits, and of the pages and
tools that name them. Types and modules keep their capital; functions of src/, strings and outputs hold no such word.
"""
import pathlib
import re

# Lemmas that would fall together with the definition that they speak of.
LEMMAS = {
    "joined_to": "joined_to-every",
    "lines_at": "lines_at-table",
    "held_by": "held_by-ledger",
    "is_digit": "is_digit-digit",
}
LEMMA_FILES = {
    "joined_to": "crates/model/proofs/",
    "lines_at": "crates/ledger/proofs/",
    "held_by": "crates/ledger/proofs/",
    "is_digit": "crates/assemble/proofs/ShownFields.antt",
}
CODES = "OK SYS RSATR PAR ID CTX ILUSE NOMEM LIMIT OBJ NOEXS TMOUT DLT".split()
CAMEL = re.compile(r"(?<![A-Za-z0-9_'·])[a-z][A-Za-z0-9']*[A-Z][A-Za-z0-9']*(?![A-Za-z0-9_])")
NOT_NAMES = {"xHH", "xFFz", "getD"}
CODE = re.compile(r"(?<![A-Za-z0-9_-])E-(" + "|".join(CODES) + r")(?![A-Za-z0-9_])")


def snake(name):
    name = re.sub(r"(?<=[a-z0-9'])([A-Z])", r"_\1", name)
    return re.sub(r"([A-Z])(?=[A-Z][a-z])", r"\1_", name).lower()


def names_in(text):
    return {n for n in CAMEL.findall(text) if n not in NOT_NAMES}


def main():
    top = pathlib.Path(".")
    sources = sorted(p for p in top.glob("crates/*/**/*") if p.suffix in (".antt", ".rt") and "out" not in p.parts)
    names = set()
    for path in sources:
        names |= names_in(path.read_text())
    others = sorted(top.glob("crates/*/must-fail/*.edit")) + sorted(top.glob("docs/**/*.md")) + [top / "README.md"]
    others += sorted(p for p in top.glob("tools/*") if p.is_file() and p.name != "spell_names.py")
    spelled = set()
    for path in sources:
        spelled |= set(re.findall(r"[a-z][A-Za-z0-9_']*", path.read_text()))
    names |= {n for path in others for n in names_in(path.read_text()) if snake(n) in spelled}
    for path in sources + others:
        text = old = path.read_text()
        for lemma, new in LEMMAS.items():
            if path.suffix == ".antt" and str(path).startswith(LEMMA_FILES[lemma]):
                text = re.sub(r"(?<![A-Za-z0-9_.·-])" + lemma + r"(?![A-Za-z0-9_-])", new, text)
        text = CAMEL.sub(lambda m: snake(m.group()) if m.group() in names else m.group(), text)
        if path.suffix in (".antt", ".rt", ".edit", ".py"):
            text = CODE.sub(r"E_\1", text)
        if text != old:
            path.write_text(text)


main()
