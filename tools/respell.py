#!/usr/bin/env python3
"""Respells the names of the definitions and lemmas of crates/ as today's Rattle spells them: in snake case, where they had capitals or dashes.

usage: python3 tools/respell.py            at the top of the repository, once, right after the kit's port.py
       python3 tools/respell.py dashes     the same for the names with dashes alone

It goes by whole names. A name in snake case that a lemma has already, beside the definition that it speaks of, gets `_lem`. The functions of src/ are in
snake case as they are; types and modules keep their upper camel case. Edits of must-fail/ get the same names, and the spelling that port.py gave the
files that they change (projections are written tight, `getD` is `get_or`).
"""

import os
import re
import sys

# Lemmas whose names would fall together with their definitions': the file below crates/, and the name.
LEMMAS = [
    ("image_lengths/proofs/EndsAlike.antt", "entries_from"),
    ("image_lengths/proofs/EndsAlike.antt", "pointer_in"),
    ("image_lengths/proofs/EndsAlike.antt", "entry_in"),
    ("image_lengths/proofs/EndsAlike.antt", "part_in"),
    ("walk/proofs/First.antt", "found_back"),
    ("walk/proofs/Placed.antt", "in_entry"),
    ("guids/proofs/Told.antt", "length_back"),
    ("efs/proofs/Told.antt", "pointer_back"),
    ("mailbox_steps/proofs/Settled.antt", "step_back"),
    ("all_entries/proofs/Rows.antt", "in_image"),
    ("all_entries/proofs/view_entries/Proof.antt", "in_image"),
    ("mailbox_held/proofs/FitLaws.antt", "place_in"),
]
# A name, or one part of a lemma's name between dashes, that begins in lower case and has a capital in it.
CAMEL = re.compile(r"(?<![A-Za-z0-9_'.])[a-z][a-z0-9]*(?:[A-Z][A-Za-z0-9]*)+(?![A-Za-z0-9_])")
# The same behind a point: a field, or a thing of a module.
FIELD = re.compile(r"(?<=\.)[a-z][a-z0-9]*(?:[A-Z][A-Za-z0-9]*)+(?![A-Za-z0-9_])")


# Names with an abbreviation in them.
ABBREVIATED = {"fourGiB": "four_gib", "getD": "get_or"}

# Lemmas and fields with a dash in their names, which would fall together with what they speak of: these too get `_lem`.
BESIDE = {
    "all-directories-told", "cut-table", "directory-at", "directory-back", "directory-bytes", "efs-back", "efs-in", "efs-place", "enters-first",
    "entries-bytes", "entry-at", "entry-back", "entry-of", "extend-all", "find-image", "find-in", "finds-nothing", "first-in", "fresh-words",
    "guid-entry-back", "guid-match-back", "head-of", "held-at", "held-between", "id-fits", "in-header", "index-zero", "interface-off", "is-pass",
    "lead-back", "lead-in", "leads-to", "level-one", "level-one-first", "level-two", "level-two-at", "lookup-back", "made-up-count", "may-stand",
    "number-of", "part-at", "part-back", "passes-faults", "place-word", "places-told", "pointer-of", "post-back", "post-fits", "put-end",
    "register-fits", "registers-fit", "repeated-back", "row-at", "skips-level-two", "sum-after", "sum-in", "summed-bytes", "totals-back",
    "view-image", "view-place", "weighted-after", "weighted-in", "when-saved", "word-back", "wrong-back",
}
# Names that the library has too: they keep their dash.
KEPT = {"and-true", "not-true"}
# A line that declares a name with a dash in it, and such a name.
DECLARED = re.compile(r"^\s*(?:(?:abbrev|unfoldable|opaque|pub|data|record|module)\s+)*([A-Za-z][\w']*(?:-[\w']+)+)\s*(?:[({].*)?:(?!:)")
DASHED = re.compile(r"[A-Za-z_][\w']*(?:-[\w']+)+")


def snake(name):
    name = ABBREVIATED.get(name, name)
    return re.sub(r"(?<=[a-z0-9])([A-Z])", lambda m: "_" + m.group(1).lower(), name)


def respelled(text):
    for pattern in (CAMEL, FIELD):
        text = pattern.sub(lambda m: snake(m.group(0)), text)
    return text


def edit(text):
    """An edit of the older spelling, in that of the files."""
    lines = []
    for line in text.split("\n"):
        if line.startswith(("old: ", "new: ")):
            line = re.sub(r"(?<=[\w)\]']) \.(?=[a-z0-9])", ".", line)
            line = re.sub(r"\((\w+(?:\.\w+)+)\)", r"\1", line)
            line = re.sub(r"\bgetD\b", "get_or", line)
            line = re.sub(r"\bNat\._([-+])_", r"Nat.◌\1◌", line)
            line = re.sub(r"Rattle·(\w+)·specs\.specs\.", r"Rattle.\1.specs.", line)
            line = re.sub(r"Rattle·(\w+)\.specs\.", r"Rattle.\1.specs.", line)
            line = re.sub(r"\{ λ r\. ⌜ (.*) ⌝ \}", lambda m: "{ " + re.sub(r"\br\b", "result", m.group(1)) + " }", line)
            line = re.sub(r"\{ ⌜ (.*) ⌝ \}", r"{ \1 }", line)
        lines.append(line)
    return "\n".join(lines)


def outside_comments(path, text, turn):
    """The text, with `turn` of each line up to its comment."""
    if path.endswith(".edit"):
        return turn(text)
    comment = re.compile(r"(?:^|(?<=\s))--.*$" if path.endswith(".antt") else r"//.*$")
    lines = []
    for line in text.split("\n"):
        at = comment.search(line)
        cut = at.start() if at else len(line)
        lines.append(turn(line[:cut]) + line[cut:])
    return "\n".join(lines)


def without_dashes(texts):
    """The names with dashes that the files of specs/ and the lemma files of proofs/ declare, in snake case."""
    own = set()
    for path, text in texts.items():
        if path.endswith(".antt") and os.path.basename(path) not in ("Proof.antt", "Answers.antt", "Invariants.antt"):
            for line in re.sub(r"(?m)--.*$", "", text).split("\n"):
                found = DECLARED.match(line)
                if found:
                    own.add(found.group(1))
    own -= KEPT
    new = {name: name.replace("-", "_") + ("_lem" if name in BESIDE else "") for name in own}
    return {path: outside_comments(path, text, lambda code: DASHED.sub(lambda m: new.get(m.group(0), m.group(0)), code)) for path, text in texts.items()}, new


def main():
    if not os.path.isdir("crates"):
        print("respell: run it at the top of the repository", file=sys.stderr)
        return 2
    dashes_alone = sys.argv[1:] == ["dashes"]
    names = set()
    texts = {}
    for top, folders, files in os.walk("crates"):
        folders[:] = sorted(f for f in folders if f != "out")
        for f in sorted(files):
            if f.endswith((".antt", ".rt", ".edit")):
                path = os.path.join(top, f)
                with open(path, encoding="utf-8") as it:
                    texts[path] = it.read()
    before = dict(texts)
    if not dashes_alone:
        for path, text in texts.items():
            for at, name in LEMMAS:
                if path == os.path.join("crates", at):
                    text = re.sub(rf"(?<![\w'.-]){name}(?![\w'-])", name + "_lem", text)
            if path.endswith(".edit"):
                text = edit(text)
            for pattern in (CAMEL, FIELD):
                names.update(pattern.findall(text))
            texts[path] = respelled(text)
    texts, undashed = without_dashes(texts)
    for path, text in texts.items():
        if text != before[path]:
            with open(path, "w", encoding="utf-8") as it:
                it.write(text)
    # The pages name the definitions too.
    pages = ["README.md"] + [os.path.join("docs", f) for f in sorted(os.listdir("docs")) if f.endswith(".md")]
    for page in pages:
        with open(page, encoding="utf-8") as it:
            text = it.read()
        new = re.sub(r"(?<![\w'])[a-z][a-z0-9]*(?:[A-Z][A-Za-z0-9]*)+(?!\w)", lambda m: snake(m.group(0)) if m.group(0) in names else m.group(0), text)
        # In a page a name with a dash is told from a word by what stands before it.
        new = re.sub(r"(?<=[:.])" + DASHED.pattern, lambda m: undashed.get(m.group(0), m.group(0)), new)
        if new != text:
            with open(page, "w", encoding="utf-8") as it:
                it.write(new)
    return 0


if __name__ == "__main__":
    raise SystemExit(main())
