#!/usr/bin/env python3
"""Spells the library's own definitions and lemmas in snake case: badCount and count-range as bad_count and count_range.

usage: python3 tools/respell.py [--check]        at the top, once, after the port's own script has turned the paths

What turns: names that the files of specs/ and proofs/ declare, wherever a file of crates/ or an edit says them, and in the
code spans of the documents. What stays: the functions, types and fields of src/, what Rattle itself makes (behind c. or
tie. in a proof), operators, and the short names of the Reads modules. Names that would fall together are kept apart by
APART. It goes by spelling alone and proves nothing. --check lists what would turn and writes nothing.
"""
import os
import re
import sys

# A lemma that would have its definition's name gets `_lem`, and a record's field `_is`.
LEMMAS = """age-without-delay answer-of confirm-shown confirmed-as every-word from-default handed-over if-second
    last-agreed lines-length one-run-fewer pairs-in public-steps refused-text reserve-shown second-bit vote-of""".split()
FIELDS = ["header-after", "mark-after", "refused-after"]
# These were turned before this script ran; where a definition now has the name, the lemma or field moves.
TURNED = {"not_made": "not_made_lem", "not_taken": "not_taken_lem", "too_long": "too_long_lem", "too_short": "too_short_lem",
          "written_after": "written_after_is"}

NAME = re.compile(r"(?<![\w'\-◌/])[A-Za-z][\w'\-]*(?![\w'◌])")
DECLARED = re.compile(r"(?m)^( *)(?:(?:abbrev|pub|unfoldable|data) +)*([^\s(){}.;,@\"«»◌]+)(?: \{[^{}\n]*\})* *:(?=\s|$)")
ALIAS = re.compile(r"(?m)^use (\S+) as (\S+)$")
BOUND = re.compile(r"[({]((?:[^\s(){}.;,@\"«»◌:]+ )+):(?=\s)")
LET = re.compile(r"\blet ([^\s(){}.;,@\"«»◌:]+) (?=[:=])")


def snake(name):
    if len(name) > 2 and not name[0].isupper():
        name = re.sub(r"(?<=[a-z0-9])[A-Z]", lambda m: "_" + m[0].lower(), name)
    return name.replace("-", "_")


APART = {n: snake(n) + "_lem" for n in LEMMAS} | {n: snake(n) + "_is" for n in FIELDS}
APART |= {old.replace("_", "-"): new for old, new in TURNED.items()}  # as the documents and the edits still have them


def files(ending):
    for top in ("crates", "docs", "second"):
        for folder, dirs, names in os.walk(top):
            dirs[:] = sorted(d for d in dirs if d != "out")
            for name in sorted(names):
                if name.endswith(ending):
                    yield os.path.join(folder, name)
    for name in sorted(os.listdir(".")):
        if name.endswith(ending):
            yield name


def read(path):
    with open(path, encoding="utf-8") as f:
        return f.read()


def code_of(text):
    return re.sub(r"--[^\n]*", "", text)


def collect():
    """The declared names, those of them that are fields of records, and the aliases of modules."""
    names, fields, aliases = set(), set(), set()
    for path in files(".antt"):
        text, inside = code_of(read(path)), None
        for line in text.split("\n"):
            m = re.match(r"( *)(?:pub )?record\b.*\bwhere\s*$", line)
            if m:
                inside = len(m[1])
                continue
            d = DECLARED.match(line)
            if line.strip() and len(line) - len(line.lstrip()) <= (inside if inside is not None else -1):
                inside = None
            if d and "tie." not in line.split(":", 1)[1][:6]:
                names.add(d[2])
                if inside is not None:
                    fields.add(d[2])
        names.update(LET.findall(text))
        for group in BOUND.findall(text):
            names.update(group.split())
        for alias in re.findall(r"\b\S+ as ([^\s,}]+)(?=[,}])", text):
            names.add(alias)
        for module, alias in ALIAS.findall(text):
            aliases.add(alias)
            if not module.endswith((".Reads", ".Tie")):
                names.add(alias)
    return names, fields, aliases


def table_of(names):
    table = {n: snake(n) for n in names if snake(n) != n} | APART | TURNED
    made = {}
    for old, new in table.items():
        if old in names or old in APART and new not in TURNED.values():
            made.setdefault(new, set()).add(old)
    together = {new: olds | ({new} & names) for new, olds in made.items() if len(olds | ({new} & names - TURNED.keys())) > 1}
    # two that no file says together may have one name
    said = [set(NAME.findall(read(path))) for path in files(".antt")]
    together = {new: olds for new, olds in together.items() if any(len(olds & s) > 1 for s in said)}
    return table, together


def turned(text, table, fields, aliases, known=None):
    def word(m):
        name, at = m[0], m.start()
        new = table.get(name)
        if new is None and known is not None and snake(name) in known and name not in APART:
            new = snake(name)
        if new is None:
            return name
        if at and text[at - 1] == ".":
            head = re.search(r"([^\s(){}.;,@\"«»]*)\.$", text[:at])
            head = head[1] if head else ""
            if not (head[:1].isupper() or head in aliases or name in fields):
                return name
        return new

    return NAME.sub(word, text)


def in_spans(text, turn):
    return re.sub(r"`[^`\n]+`", lambda m: turn(m[0]), text)


def main():
    check = "--check" in sys.argv
    names, fields, aliases = collect()
    table, together = table_of(names)
    if together:
        for new, olds in sorted(together.items()):
            print(f"fall together: {new}: {' '.join(sorted(olds))}")
        return 1
    known = {table.get(n, n) for n in names}
    count = 0
    for ending in (".antt", ".rt", ".edit", ".md"):
        for path in files(ending):
            old = read(path)
            turn = lambda t: turned(t, table, fields, aliases, known if ending in (".edit", ".md") else None)
            if ending == ".antt":
                # the code, and the code spans of comments
                new = re.sub(r"--[^\n]*|(?:(?!--)[^\n])+", lambda m: in_spans(m[0], turn) if m[0].startswith("--") else turn(m[0]), old)
            elif ending == ".md":
                new = in_spans(old, turn)
            else:
                new = turn(old)
            if new != old:
                count += 1
                if not check:
                    with open(path, "w", encoding="utf-8") as f:
                        f.write(new)
    if check:
        for old in sorted(table):
            print(old, table[old])
    print(f"respell: {len(table)} names, {count} files")
    return 0


sys.exit(main())
