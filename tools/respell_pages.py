#!/usr/bin/env python3
"""Brings the names of definitions, fields and lemmas that the pages give in backticks to the spelling of tools/respell.py. Run once, at the top, after it. A name turns if it was declared in specs/ or proofs/ of the
commit before the port, the first that docs/PORT.md names, and its new spelling is declared now; what is gone stays as it was written. No name of C, Rust or a file has such a spelling.

    tools/respell_pages.py [--check]     --check writes nothing, and prints how many names of each page would turn
"""
import pathlib
import re
import subprocess
import sys

NAME = r"[A-Za-zμκα][\w′'-]*"
HEAD = re.compile(r"^\s*(?:(?:abbrev|pub|unfoldable|ruleset|record|data|mutual) )*([^\s(){}\[\],;.\"`@]+)(?= :(?:\s|$)| \(| :$| =| \{|$)", re.M)
landed = pathlib.Path("docs/PORT.md").read_text().split("\n")[0]


def git(*words):
    return subprocess.run(["git", *words], text=True, stdout=subprocess.PIPE, check=True).stdout


def declared(texts):
    found = set()
    for text in texts:
        found |= {m[1] for m in HEAD.finditer(re.sub(r"(^|\s)--(?=\s|$).*", r"\1", text)) if re.fullmatch(NAME, m[1])}
    return found


def spelled(name):
    name = name.replace("′", "'")
    return re.sub(r"[-_]+(\w)", lambda m: m[1].upper(), name) if name[0].isupper() else name.replace("-", "_")


files = [name for name in git("ls-tree", "-r", "--name-only", landed, "crates").split("\n") if name.endswith(".antt")]
now = declared(path.read_text() for path in pathlib.Path("crates").rglob("*.antt"))
turns = {name for name in declared(git("show", f"{landed}:{name}") for name in files) if spelled(name) != name and spelled(name) in now}
for page in [pathlib.Path("README.md"), *sorted(pathlib.Path("docs").glob("*.md"))]:
    old, count = page.read_text(), 0

    def turned(name):
        global count
        count += name[0] in turns
        return spelled(name[0]) if name[0] in turns else name[0]

    new = re.sub(r"`[^`\n]*`", lambda words: re.sub(NAME, turned, words[0]).replace("specs/code/", "specs/Code/"), old)
    if new != old:
        print(f"{page}: {count} names")
        if "--check" not in sys.argv:
            page.write_text(new)
