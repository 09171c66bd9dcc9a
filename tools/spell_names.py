#!/usr/bin/env python3
"""Spells the repository's own definitions, lemmas, fields and constructors as today's Rattle does.

usage: tools/spell_names.py [--table]     at the top of the repository, once, after /opt/rattle/port/port.py

A name that an .antt file below crates/ declares turns: 'isInput' to 'is_input', 'all-as-before' to 'all_as_before', 'All-shared' to 'AllShared'. It turns wherever
it stands as a word in .antt and .rt files; in a comment a name with a dash turns only between backquotes. A name that an item borrows from the library stays, and so
do the goals of a function's Proof.antt. A line that begins 'look:' names a word that was there already. --table prints the rows, old and new, and writes nothing.
"""
import os
import re
import subprocess
import sys

WORD = re.compile(r"(?<![\w'◌-])[A-Za-z_][\w'≢≡≤∷∙-]*")
DECLARED = re.compile(r"^\s*(?:(?:unfoldable|abbrev|private|pub|mut|field)\s+)*((?:[A-Za-z_][\w'≢≡≤-]*\s+)+):(?=\s)")
RECORD = re.compile(r"^\s*(?:pub\s+)?(?:record|data|module)\s+([A-Za-z_][\w'-]*)")
IMPORT = re.compile(r"\buse\s+([\w.]+)(?:\.\{([^}]*)\}|\s+as\s+([\w-]+))")
KEEP = {"let", "where", "in"}
# Lemmas that would have the name of what they speak of.
OTHERWISE = {
    "activity-alarm": "activity_alarm_is",
    "decimal-in": "decimal_in_reads",
    "held-key": "key_is_held",
    "mode-number": "mode_of_number",
    "open-sum": "open_sum_bounded",
    "own-ready": "own_ready_is",
    "page-count": "page_count_holds",
    "record-columns": "record_columns_printable",
    "record-line": "record_line_printable",
    "start-bucket": "start_bucket_assigned",
    "value-byte": "value_byte_small",
}


def files(ending):
    for folder, dirs, names in os.walk("crates"):
        dirs[:] = sorted(d for d in dirs if d != "out")
        for n in sorted(names):
            if n.endswith(ending):
                yield os.path.join(folder, n)


def spelt(name):
    bare = name.rstrip("'")
    primes = name[len(bare):]
    if not re.search(r"-|[a-z0-9][A-Z]", bare):
        return name
    if re.search(r"[≢≡≤]", bare):
        return name
    if bare[0].isupper():
        return "".join(p[:1].upper() + p[1:] for p in bare.split("-")) + primes
    s = bare.replace("-", "_")
    s = re.sub(r"([a-z0-9])([A-Z])", lambda m: m[1] + "_" + m[2].lower(), s)
    return s[0] + s[1:].lower() + primes if not re.search(r"[A-Z]", s) else re.sub(r"[A-Z]", lambda m: m[0].lower(), s) + primes


def turned(line, mark, table):
    """The line with its names turned; in its comment those with a dash only between backquotes."""
    at = re.search(rf"(?:^|(?<=\s)){re.escape(mark)}(?=\s|$)", line)
    code, comment = (line[: at.start()], line[at.start() :]) if at else (line, "")
    plain = {k: v for k, v in table.items() if "-" not in k}
    code = WORD.sub(lambda m: table.get(m[0], m[0]), code)
    parts = comment.split("`")
    return code + "`".join(WORD.sub(lambda m: (table if i % 2 else plain).get(m[0], m[0]), part) for i, part in enumerate(parts))


def main():
    os.chdir(subprocess.run(["git", "rev-parse", "--show-toplevel"], capture_output=True, text=True, check=True).stdout.strip())
    texts = {p: open(p, encoding="utf-8").read() for p in list(files(".antt")) + list(files(".rt"))}
    declared, borrowed, words = set(), set(), {}
    for p, t in texts.items():
        for w in WORD.findall(t):
            words.setdefault(w, set()).add(p)
        for m in IMPORT.finditer(t):
            if not m[1].startswith("Rattle.") or m[1].startswith(("Rattle.std", "Rattle.core", "Rattle.io", "Rattle.libc")):
                for it in (m[2] or "").split(","):
                    borrowed.add(it.strip().split(" as ")[0].strip())
            elif ".declared." in m[1] or re.search(r"\.(Goals|Given|Lts|Tie|Statement|Code|Met)$", m[1]) or ".contracts." in m[1]:
                for it in (m[2] or "").split(","):
                    borrowed.add(it.strip().split(" as ")[0].strip())
        if not p.endswith(".antt"):
            continue
        for line in t.splitlines():
            m = DECLARED.match(line)
            if m and p.endswith("/Proof.antt") and re.search(r":\s+(?:tie|\w+)\.Need-", line):
                continue
            if m and not line.lstrip().startswith(("use ", "--", "let ", "→", "(", "λ")):
                declared |= set(m[1].split()) - KEEP
            m = RECORD.match(line)
            if m:
                declared.add(m[1])
    table, left = {}, []
    for name in sorted(declared - borrowed):
        new = OTHERWISE.get(name) or spelt(name)
        if new == name:
            continue
        if new in words and new not in {spelt(o) for o in table}:
            here = words[new] & words[name]
            if here and any(p.endswith(".antt") for p in here):
                left.append((name, new, sorted(here)[:3]))
        if new in table.values():
            left.append((name, new, ["two names of this table"]))
        table[name] = new
    for row in left:
        print("look:", *row, file=sys.stderr)
    if "--table" in sys.argv:
        for name in sorted(table):
            print(f"{name}\t{table[name]}")
        return
    for p, t in texts.items():
        mark = "--" if p.endswith(".antt") else "//"
        new = "".join(turned(line, mark, table) for line in t.splitlines(keepends=True))
        if new != t:
            with open(p, "w", encoding="utf-8") as f:
                f.write(new)


if __name__ == "__main__":
    main()
