#!/usr/bin/env python3
"""Brings the names of this repository's definitions and lemmas to the spelling of today's Rattle.

Run once, at the top, after the kit's port.py. Types and facts get upper camel case (Law-of-lives: LawOfLives), all
other names snake case (first-large: first_large), and _lem behind it where a function has the name. A dash stays after `length`, where it joins two names.
Names that Rattle makes from the code (goal.X, and steps behind c. and w.) are left alone.
"""
import glob
import re
import sys

SIGNATURE = re.compile(r"^\s*(?:(?:abbrev|unfoldable|pub|data|record)\s+)*([^\s(){}:;=]+)\s*(?:[({].*?)?\s:\s")
LETTER = r"[^\s(){}:;,.=·]"


def respelled(name):
    if name.startswith("length-"):
        return "length-" + name[len("length-"):].replace("-", "_")
    if name[0].isupper() and len(name.split("-")[0]) > 1 or name.startswith("A-"):
        return "".join(part[:1].upper() + part[1:] for part in name.split("-"))
    return name.replace("-", "_")


def proof_files():
    return sorted(glob.glob("crates/*/specs/**/*.antt", recursive=True) + glob.glob("crates/*/proofs/**/*.antt", recursive=True))


def code_files():
    return sorted(glob.glob("crates/*/src/**/*.rt", recursive=True))


def own_names(files):
    """Names with a dash that a signature of ours declares, and all other words there."""
    dashed, words = set(), set()
    for path in files:
        for line in open(path, encoding="utf-8"):
            if line.lstrip().startswith("--"):
                continue
            words.update(re.findall(r"[A-Za-zθ][\w']*", line))
            found = SIGNATURE.match(line)
            if found and "-" in found.group(1) and "goal." + found.group(1) not in line:
                dashed.add(found.group(1))
    return dashed, words


def turned(text, pattern, comment, table):
    lines = []
    for line in text.split("\n"):
        at = line.find(comment)
        code, said = (line, "") if at < 0 else (line[:at], line[at:])
        code = pattern.sub(lambda m: table[m.group(0)], code)
        said = re.sub(r"`([^`]+)`", lambda m: "`" + pattern.sub(lambda n: table[n.group(0)], m.group(1)) + "`", said)
        lines.append(code + said)
    return "\n".join(lines)


def main():
    dashed, words = own_names(proof_files())
    table = {name: respelled(name) for name in dashed}
    table = {old: new for old, new in table.items() if old != new}
    for old, new in table.items():
        if new in words:
            table[old] = new + "_lem"
            print(f"{old}: {new} is a function's name, so {new}_lem")
    together = {new for new in table.values() if list(table.values()).count(new) > 1 or new in words}
    if together:
        sys.exit("names that fall together: " + ", ".join(sorted(together)))
    any_name = "|".join(re.escape(name) for name in sorted(table, key=len, reverse=True))
    pattern = re.compile(r"(?<!goal\.)(?<!\bc\.)(?<!\bw\.)(?<![\w'θ-])(?:" + any_name + r")(?![\w'-])")
    for path in proof_files() + code_files():
        text = open(path, encoding="utf-8").read()
        new = turned(text, pattern, "//" if path.endswith(".rt") else "--", table)
        if new != text:
            open(path, "w", encoding="utf-8").write(new)
    print(len(table), "names respelled")


main()
