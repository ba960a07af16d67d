#!/usr/bin/env python3
"""Spells the repository's own definitions, lemmas, fields and variables of contracts in snake case, as the library's are spelled.

usage: python3 tools/respell.py            at the top of the repository, once

Reads crates/ (.antt, .rt, .edit), README.md and docs/, and rewrites them in place: in .antt files every name, in .rt files those of `ghost use` lines
and clauses, in .edit files those of the lines 'old:' and 'new:', in pages those between back quotes. A name that would fall together with
another one has its own spelling in APART. Names of the library, of generated goals and of Rust items are left alone.
"""
import collections
import glob
import re
import sys

NAME = re.compile(r"[A-Za-z_][A-Za-z0-9_'\-]*[A-Za-z0-9_']|[A-Za-z_]")
DEFINED = re.compile(r"^\s*(?:pub |abbrev |unfoldable |mutual )*([A-Za-z_][^\s:{}()]*) :(?: |$)(.*)")

# The library defines these names too.
LIBRARY = {"or-true", "take-set", "decode-encode", "decreases-loop", "invariant-loop", "drop-set", "length-encode"}

# A lemma beside a definition of its name, a field beside one, a module.
APART = {
    "standing-if": "standing_if_lem",
    "first-day": "first_day_lem",
    "figure-row": "figure_row_lem",
    "entries-shown": "entries_shown_lem",
    "date-at": "date_at_lem",
    "account-row": "account_row_lem",
    "no-entry": "no_entry_lem",
    "account-at": "account_at_lem",
    "paid-over": "paid_over_lem",
    "decision-number": "decision_number_lem",
    "last-columns": "last_columns_lem",
    "account-line": "account_line_lem",
    "b-high": "b_high_lem",
    "points-at": "points_at_lem",
    "day-at": "day_at_lem",
    "fresh-image": "fresh_image_lem",
    "b-fits": "b_fits_lem",
    "unpack-at": "unpack_at_lem",
    "named-at": "named_at_lem",
    "put-all": "put_all_lem",
    "end-at": "end_at_lem",
    "same-date": "keeps_date",
    "noDay": "NoDay",
}


# The same where the lemma alone has the new spelling already: the file, its text, and the text with the lemma's own name.
FIRST = [
    ("crates/pages/proofs/RowsLaws.antt", "pub entry_row :", "pub entry_row_lem :"),
    ("crates/pages/proofs/RowsLaws.antt", "\nentry_row l = ", "\nentry_row_lem l = "),
    ("crates/pages/proofs/rows/entry_row/Proof.antt", ", entry_row}", ", entry_row_lem}"),
    ("crates/pages/proofs/rows/entry_row/Proof.antt", "(entry_row l)", "(entry_row_lem l)"),
]


def snake(name):
    return re.sub(r"([a-z0-9])([A-Z])", lambda m: m[1] + "_" + m[2].lower(), name.replace("-", "_"))


def code_of(text):
    return re.sub(r"--.*", "", text)


def main():
    for path, old, new in FIRST:
        text = open(path, encoding="utf-8").read()
        open(path, "w", encoding="utf-8").write(text.replace(old, new))
    antt = sorted(glob.glob("crates/*/specs/**/*.antt", recursive=True) + glob.glob("crates/*/proofs/**/*.antt", recursive=True))
    names = {}
    for path in antt:
        code = code_of(open(path, encoding="utf-8").read())
        for m in NAME.finditer(code):
            if m[0][0].islower() and re.search(r"[a-z0-9][A-Z]", m[0]):
                names[m[0]] = snake(m[0])
        for line in code.split("\n"):
            d = DEFINED.match(line)
            if d and "-" in d[1] and d[1][0].islower() and d[1] not in LIBRARY and not re.match(r" *(tie|goal)\.", d[2]) and "tie." not in d[2][:5]:
                names[d[1]] = snake(d[1])
    names.update(APART)
    # goals keep the names that are made for them
    for path in antt:
        if path.endswith("/Proof.antt"):
            for line in open(path, encoding="utf-8"):
                d = DEFINED.match(line)
                if d and re.match(r" *tie\.", d[2]) and "-" in d[1]:
                    names.pop(d[1], None)

    def turn(text, only=None):
        return NAME.sub(lambda m: names.get(m[0], m[0]) if only is None or only(m[0]) else m[0], text)

    camel = lambda w: "-" not in w

    def turn_code(text):
        out = []
        for line in text.split("\n"):
            i = line.find("--")
            code, note = (line, "") if i < 0 else (line[:i], line[i:])
            note = re.sub(r"`[^`]*`", lambda m: turn(m[0]), turn(note, camel))
            out.append(turn(code) + note)
        return "\n".join(out)

    def turn_rust(text):
        out, deep = [], 0
        for line in text.split("\n"):
            inside = deep > 0 or re.match(r"\s*(ghost use |requires|ensures|ghost )", line)
            if re.match(r"\s*(requires|ensures)\b", line) or deep > 0:
                deep += line.count("{") - line.count("}")
            i = line.find("//")
            if inside:
                out.append(turn(line))
            elif i >= 0:
                out.append(line[:i] + re.sub(r"`[^`]*`", lambda m: turn(m[0]), turn(line[i:], camel)))
            else:
                out.append(line)
        return "\n".join(out)

    def turn_edit(text):
        return "\n".join(turn(line) if re.match(r"(old|new):", line) else line for line in text.split("\n"))

    def turn_page(text):
        return re.sub(r"`[^`\n]*`", lambda m: turn(m[0]), text)

    groups = [
        (antt, turn_code),
        (glob.glob("crates/*/src/**/*.rt", recursive=True), turn_rust),
        (glob.glob("crates/*/must-fail/*.edit"), turn_edit),
        (["README.md"] + glob.glob("docs/*.md"), turn_page),
    ]
    changed = 0
    for paths, how in groups:
        for path in sorted(paths):
            text = open(path, encoding="utf-8", newline="").read()
            new = how(text)
            if new != text:
                open(path, "w", encoding="utf-8", newline="").write(new)
                changed += 1
    together = collections.defaultdict(list)
    for a, b in names.items():
        together[b].append(a)
    for b, a in sorted(together.items()):
        if len(a) > 1:
            print("together:", b, a)
    print(len(names), "names,", changed, "files")


if __name__ == "__main__":
    sys.exit(main())
