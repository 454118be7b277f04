#!/usr/bin/env python3
"""Spells the repository's own words of specs/ and proofs/ as today's Rattle spells them: words in snake case, types in camel case.

usage: python3 tools/snake_case.py      at the top of the repository, once, after /opt/rattle/port/port.py

A name is the repository's own if a file of specs/ or proofs/ declares it (a definition, lemma, record, field, constructor, binder or
`let`). Names that Rattle makes (of goals, loops, calls) and names of its library keep their spelling. It turns .antt files and the clauses
of .rt files; comments, strings and the code of src/ stay. It stops, and writes nothing, where two names would fall together in one file.
"""

import os
import re
import sys

# A name may hold letters, digits, dashes and primes; it begins with a letter.
WORD = re.compile(r"(?<![\w'\-≡≤<→≠])[^\W\d][\w'\-]*(?![\w'\-≡≤<→≠])")
# What Rattle makes: goals, loops, calls, choices of a proof.
MADE = re.compile(r"^(returns|loop|invariant|decreases|overflow|copy-out-requires|count-access-requires|slice-bounds|write-block-requires|In|in|if|else|then)(-|$)")
# Names that a declaration of ours shares with one of the library, and declared names of the unfinished crates' former machine.
EXTRA = {"claim-to-check", "renewal-to-confirm", "write-to-land", "open-tests", "watching-place"}
# Spelled by hand, since the rule would keep an old library's word.
BY_HAND = {"getD-before": "get_or_before", "getD-behind": "get_or_behind", "foundingOf": "founding_of", "isShown": "is_shown", "isNear": "is_near", "isTimely": "is_timely", "standingTests": "standing_tests", "triedOf": "tried_of", "watchingFrom": "watching_from", "issuedBy": "issued_by", "performedBy": "performed_by", "digitValue": "digit_value_of", "stays-sound": "stays_sound_lem"}
# Fields of ours that are named as the ghost fields that they repeat: of two records, so they may have one name.
FIELDS = {"good_fits", "due_fits"} | {f"{x}_{y}" for x in ("hosts", "resources", "delay", "lease") for y in ("low", "high")}
SIGNATURE = re.compile(r"^\s*(?:(?:pub|abbrev|unfoldable)\s+)*([^\s:(){}]+)\s*:(?:\s|$)(.*)")
TYPE = re.compile(r"^\s*(?:(?:pub|abbrev|unfoldable)\s+)*(?:record|data)\s+(\S+)")
BINDER = re.compile(r"[({]([^\s():{}λ.=][^():{}λ.=]*?) : ")
LET = re.compile(r"\blet ([^\s:=,().]+)\s*(?::|=)")
LETS = re.compile(r"\blet \(([^()]*)\)\s*=")
GOAL = re.compile(r"(goal|need)\.")


def files(suffix):
    for folder, dirs, names in os.walk("crates"):
        dirs[:] = sorted(d for d in dirs if d != "out")
        for name in sorted(names):
            if name.endswith(suffix):
                yield os.path.join(folder, name)


def read(path):
    with open(path, encoding="utf-8") as f:
        return f.read()


def declared():
    """Every name that a file of ours declares, and whether as a type."""
    words, types = set(), set()
    for path in files(".antt"):
        for line in read(path).split("\n"):
            if line.strip().startswith("--") or line.startswith("use "):
                continue
            for found in TYPE.findall(line):
                types.add(found)
            it = SIGNATURE.match(line)
            if it and not GOAL.match(it.group(2)):
                words.add(it.group(1).strip("«»"))
                if re.search(r"(^|→ )Type 0\s*$", it.group(2)):
                    types.add(it.group(1))
            for found in BINDER.findall(line):
                words.update(found.split())
            words.update(LET.findall(line))
            for found in LETS.findall(line):
                words.update(w.strip() for w in found.split(","))
            for found in re.findall(r"λ ([^.()]*)\.", line):
                words.update(found.split())
    return words, types


def camel(name):
    return "".join(part[0].upper() + part[1:] for part in name.split("-"))


def turned():
    words, types = declared()
    table = dict(BY_HAND)
    for name in sorted(words | types | EXTRA):
        if "-" not in name or name in BY_HAND or (MADE.match(name) and name not in OWN_LIKE_MADE):
            continue
        table[name] = camel(name) if name in types or name[0].isupper() else name.replace("-", "_")
    return table


# Names of ours that begin like names that Rattle makes.
OWN_LIKE_MADE = {"in-cons", "in-front", "in-push", "in-range", "in-range-of", "In-front", "returns-step"}


def clauses(text):
    """The spans of a .rt file that are antt: `ghost use` lines, ghost fields and the braces of requires and ensures."""
    for it in re.finditer(r"(?m)^\s*ghost use [^;]*;", text):
        yield it.span()
    for it in re.finditer(r"(?m)^\s*(?:requires|ensures|ghost)\b(?! use)[^{\n]*\{", text):
        depth, i = 1, it.end()
        while depth and i < len(text):
            depth += {"{": 1, "}": -1}.get(text[i], 0)
            i += 1
        yield it.end(), i


def spell(text, table, path, told):
    seen = set(WORD.findall(text))

    def one(m):
        new = table.get(m.group(0))
        if new is None:
            return m.group(0)
        if new in seen and new not in FIELDS:
            told.append(f"{path}: {m.group(0)} and {new}")
        return new

    return WORD.sub(one, text)


def code_of(line):
    """An antt line as its code and its comment."""
    it = re.search(r"(^|\s)--(\s|$)", line)
    return (line, "") if not it else (line[: it.start()], line[it.start() :])


def main():
    table = turned()
    told, out = [], {}
    for path in files(".antt"):
        text = read(path)
        code = "\n".join(code_of(l)[0] for l in text.split("\n"))
        new = spell(code, table, path, told).split("\n")
        out[path] = "\n".join(n + code_of(l)[1] for n, l in zip(new, text.split("\n")))
    for path in files(".rt"):
        text, done, at = read(path), "", 0
        for a, b in sorted(set(clauses(text))):
            done += text[at:a] + spell(text[a:b], table, path, told)
            at = b
        out[path] = done + text[at:]
    if told:
        print("\n".join(sorted(set(told))))
        raise SystemExit(f"{len(set(told))} places where two names would fall together; nothing was written")
    if "--table" in sys.argv:
        print("\n".join(f"{a} {b}" for a, b in sorted(table.items())))
        return
    n = 0
    for path, text in out.items():
        if text != read(path):
            n += 1
            with open(path, "w", encoding="utf-8") as f:
                f.write(text)
    print(f"{n} files, {len(table)} names")


main()
