#!/usr/bin/env python3
"""Spells the repository's own definitions and lemmas as today's Rattle does: words in snake case, the parts of a lemma's name joined by dashes.

usage: python3 tools/respell.py [FOLDER]       once, after port.py, at the top of the repository or in FOLDER

It goes over the words of crates (proofs, definitions, clauses, edits) and of the documents: `checkBytes` is `check_bytes`. A lemma that port.py wrote
with an underscore, since a library of the kit had one of that name, gets its dash back (DASHED). Strings, functions of src and the kit's names stay.
"""

import os
import re
import sys

# Words that keep their capitals: the kit's, and steps of old proofs.
KEPT = {"not_T", "end_Before", "no_Stack", "x7E"}
NAMED = {"getD-within": "get_or-within"}

DASHED = """
absent-none add-at add-done add-half add-left add-wide after-check after-none all-append all-cons all-fit all-listed all-made all-map
all-noted all-of all-read all-same all-told among-cases among-first among-later apart-distinct args-of asked-is at-again at-anew at-done
at-each at-fields at-label at-name at-prim at-top before-on before-self before-split below-last below-length below-plain below-row
below-self beside-end beside-none bodies-of body-end body-ended both-some by-end by-layout by-names by-number bytes-most cast-ends copied-on
count-map count-same digits-more digits-value distinct-apart distinct-append distinct-head distinct-tail each-after each-append each-on
each-same end-none end-whole ends-as ends-on every-byte field-in filled-none first-count first-fits first-found first-of first-one
first-rows first-small first-step fit-is fit-length fit-none fit-on fit-parts fit-row flat-append found-first found-in found-none
found-passed found-some fresh-meets from-cons from-fields from-first from-itself from-or from-zero front-length given-is go-on goes-on
going-end going-on going-start grows-one has-named head-at head-in here-in in-field in-place in-row inside-is is-false is-made is-name
is-none is-true is-zero keep-all keep-append kept-cons kept-same key-in key-one keys-length keys-on kind-at known-on known-same known-small
label-is label-small labels-apart last-fits last-on last-within leads-keeps left-end left-here left-le length-at length-over lines-end
lines-start links-end listed-at listed-in low-digit lowered-none lowest-start lt-of made-at main-some map-at map-other mark-set marked-by
may-read merge-none merge-on merged-on merged-some more-within moved-to mul-at mul-left mul-next name-body name-in name-new name-out
names-apart names-in near-on never-on no-arguments no-bytes no-kids no-label no-mode no-name no-place no-test no-value node-at none-before
none-found none-here none-kept none-left none-needed none-or-some none-passed not-end not-set not-short not-three number-at number-is
of-function on-stack once-is one-key one-label one-less one-more one-same opens-before own-is own-name owned-inside part-at part-bytes
part-join part-length part-of passed-is place-in place-inside place-map place-none place-of place-out place-same pushes-row put-in put-keeps
puts-none puts-then read-back read-fits read-is read-kept read-names ready-on record-of role-same root-in root-is root-stands row-fits
row-in row-is row-label row-named row-number row-read row-reads row-same row-stays row-within row-write rows-are rows-at rows-back rows-end
rows-few rows-fit rows-next rows-none rows-run rows-start rows-write run-at run-end run-in run-inside run-length run-none run-short
same-bytes same-end same-next same-numbers same-or same-parts same-refl same-start same-taken same-test says-first says-if says-none
says-then second-at second-fits second-none seen-are seen-by set-keeps size-is skip-by skip-stop small-of stands-at sub-row table-is
table-none table-on take-left take-none taken-at tree-is tree-opens type-at walk-end walk-start walked-same way-back way-on whole-again
whole-here whole-is whole-join work-start written-as written-is written-none zero-a
""".split()

# The same, in these files alone: elsewhere the word is a definition.
DASHED_IN = {
    "at-most": {
        "crates/syntax/proofs/actor/AsWritten.antt",
    },
    "in-table": {
        "crates/passed/proofs/alias/alias_passed/Proof.antt",
        "crates/environment/proofs/Links.antt",
        "crates/environment/proofs/enter/Proof.antt",
        "crates/environment/proofs/merge/Tables.antt",
        "crates/environment/proofs/step/Proof.antt",
        "crates/syntax/proofs/hashes/Methods.antt",
        "crates/inhabitants/proofs/empty/Visits.antt",
        "crates/analysis/proofs/chase/Rows.antt",
        "crates/print/proofs/name_or_number/Proof.antt",
    },
    "is-set": {
        "crates/analysis/proofs/reaching/Near.antt",
        "crates/analysis/proofs/reaching/nearer/Proof.antt",
    },
    "last-end": {
        "crates/book/proofs/Names.antt",
        "crates/book/proofs/rules/names_fine/Proof.antt",
        "crates/syntax/proofs/class/Laws.antt",
        "crates/syntax/proofs/class/last_child/Proof.antt",
        "crates/inhabitants/proofs/empty/Fields.antt",
        "crates/inhabitants/proofs/empty/visit_fields/Proof.antt",
        "crates/analysis/proofs/chase/Rows.antt",
        "crates/analysis/proofs/chase/chase/Proof.antt",
    },
    "names-at": {
        "crates/format/proofs/Names.antt",
    },
    "names-of": {
        "crates/passed/proofs/marks/marks_passed/Proof.antt",
        "crates/passed/proofs/empty/emptiness_passed/Proof.antt",
        "crates/inhabitants/proofs/empty/Fields.antt",
        "crates/inhabitants/proofs/empty/Visits.antt",
    },
    "no-rows": {
        "crates/inhabitants/proofs/empty/Fields.antt",
    },
    "row-of": {
        "crates/listing/proofs/Uses.antt",
        "crates/listing/specs/Uses.antt",
    },
}

WORD = re.compile(r"[A-Za-z_][\w'₀-₉]*(?:-[\w'₀-₉]+)*")
PIECE = re.compile(r'''(?P<text>b?"(?:[^"\\]|\\.)*"|b?'(?:[^'\\]|\\.)')|//[^\n]*''')
CAMEL = re.compile(r"[a-z_][a-z0-9_']*[A-Z]")


def snake(part):
    return re.sub(r"(?<=[a-z0-9])([A-Z])", lambda m: "_" + m[1], part).lower() if CAMEL.match(part) else part


def spelled(word, restored):
    if word in KEPT:
        return word
    if word in NAMED:
        return NAMED[word]
    if word in restored:
        return restored[word]
    return "-".join(snake(p) for p in word.split("-"))


def respell(text, restored):
    return WORD.sub(lambda m: spelled(m[0], restored), text)


def in_code(text):
    """A file of src: all but strings and characters."""
    out, at = [], 0
    for m in PIECE.finditer(text):
        out += [respell(text[at : m.start()], {}), m[0] if m["text"] else respell(m[0], {})]
        at = m.end()
    return "".join(out) + respell(text[at:], {})


def files(root):
    for folder, dirs, names in os.walk(os.path.join(root, "crates")):
        dirs[:] = sorted(d for d in dirs if d != "out")
        for n in sorted(names):
            if n.endswith((".rt", ".antt", ".edit")):
                yield os.path.join(folder, n)


def documents(root):
    for folder, dirs, names in os.walk(os.path.join(root, "docs")):
        for n in sorted(names):
            if n.endswith(".md") and n != "PORT.md":
                yield os.path.join(folder, n)
    yield os.path.join(root, "README.md")


def main(argv):
    root = argv[0] if argv else "."
    known, changed = set(), 0
    for p in files(root):
        with open(p, encoding="utf-8") as f:
            old = f.read()
        if p.endswith(".antt"):
            here = os.path.relpath(p, root)
            new = respell(old, {w.replace("-", "_"): w for w in DASHED + [w for w in DASHED_IN if here in DASHED_IN[w]]})
        else:
            new = in_code(old)
        known.update(WORD.findall(new))
        if new != old:
            changed += 1
            with open(p, "w", encoding="utf-8") as f:
                f.write(new)
    for p in documents(root):
        with open(p, encoding="utf-8") as f:
            old = f.read()
        new = WORD.sub(lambda m: s if (s := spelled(m[0], {})) in known else m[0], old)
        if new != old:
            changed += 1
            with open(p, "w", encoding="utf-8") as f:
                f.write(new)
    print(f"{changed} files changed")
    return 0


if __name__ == "__main__":
    sys.exit(main(sys.argv[1:]))
