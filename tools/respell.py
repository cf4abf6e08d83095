#!/usr/bin/env python3
"""Brings the repository's own definitions, fields, lemmas and variables to the kit's spelling: words in snake case, types and facts in upper
camel case, modules in upper camel case; and asks for tactics in each crate. Run once, at the top, right after port.py. It leaves what src/ declares,
strings, and the library's names.

    tools/respell.py [--check]     --check writes nothing, and prints what would fall together
"""
import collections
import pathlib
import re
import subprocess
import sys

root = pathlib.Path(".")
check = "--check" in sys.argv
crates = sorted(path.name for path in (root / "crates").iterdir() if path.is_dir())
TOKEN = re.compile(r"[^\s(){}.;,@\"«»\[\]\\`]+")
NAME = re.compile(r"[A-Za-zμκα][\w'-]*")
OWN = re.compile(rf"Rattle\.(?:{'|'.join(crates)})\.")
MODULE = re.compile(r"(?:^|[\s({\[,;.])[A-Z][\w'-]*\.$")
HEAD = re.compile(r"^\s*(?:(?:abbrev|pub|unfoldable|ruleset|record|data|mutual) )*([^\s(){}\[\],;.\"`@]+)(?= :(?:\s|$)| \(| :$| =| \{|$)", re.M)
FIELD = re.compile(r"^  pub ([^\s(){}\[\],;.\"`@]+) :(?=\s|$)", re.M)


def files():
    for crate in crates:
        for part in ("specs", "proofs"):
            yield from sorted((root / "crates" / crate / part).rglob("*.antt"))


def code(text):
    return re.sub(r"(^|\s)--(?=\s|$).*", r"\1", text)


def spelled(name):
    if name[0].isupper():
        return re.sub(r"[-_]+(\w)", lambda m: m[1].upper(), name)
    return name.replace("-", "_")


declared, fields = set(), set()
for path in files():
    text = code(path.read_text())
    declared |= {m[1] for m in HEAD.finditer(text) if NAME.fullmatch(m[1])}
    fields |= set(FIELD.findall(text))
turns = {name for name in declared | fields if NAME.fullmatch(name) and ("-" in name or (name[0].isupper() and "_" in name))}
together = collections.Counter()


def antt(text, path):
    """A file of specs/ or proofs/."""
    kept, out, images = set(), [], {}
    for line in text.split("\n"):
        use = re.match(r"\s*(?:pub )?use ([^\s{]+)", line)
        if use and not OWN.match(use[1]):
            kept |= set(TOKEN.findall(line))
    for line in text.split("\n"):
        mark = re.search(r"(^|\s)--(?=\s|$)", line)
        front, rest = (line[: mark.start()], line[mark.start():]) if mark else (line, "")
        use = re.match(r"\s*(?:pub )?use ([^\s{]+)", front)
        if not (use and not OWN.match(use[1])):
            front = TOKEN.sub(lambda m: one(m, front, kept, images), front)
        rest = re.sub(r"`[^`]*`", lambda m: TOKEN.sub(lambda t: spelled(t[0]) if t[0] in turns else t[0], m[0]), rest)
        out.append(front + rest)
    words = set(TOKEN.findall(code(text)))
    for old, new in images.items():
        if new in words and new not in turns:
            together[(str(path), old, new)] += 1
    return "\n".join(out)


def one(m, line, kept, images):
    token = m[0]
    if not NAME.fullmatch(token) or not ("-" in token or (token[0].isupper() and "_" in token)):
        return token
    projected = m.start() > 0 and line[m.start() - 1] == "."
    if projected and token not in fields and not (token in turns and MODULE.search(line[: m.start()])):
        return token
    if not projected and token in kept:
        return token
    if token[0].isupper() and token not in turns:
        return token
    images[token] = spelled(token)
    return spelled(token)


def rattle(text, path):
    """A file of src/: clauses and ghost use items alone have such names."""
    images, out = {}, []

    def own(m):
        if m[0] in turns:
            images[m[0]] = spelled(m[0])
            return spelled(m[0])
        return m[0]

    for line in text.split("\n"):
        mark = line.find("//")
        front, rest = (line[:mark], line[mark:]) if mark >= 0 else (line, "")
        if re.match(r"\s*(?:pub )?ghost use ([^\s{]+)", front) and not OWN.search(front):
            out.append(line)
            continue
        parts = re.split(r'(b?"(?:[^"\\]|\\.)*")', front)
        front = "".join(part if i % 2 else TOKEN.sub(own, part) for i, part in enumerate(parts))
        rest = re.sub(r"`[^`]*`", lambda m: TOKEN.sub(own, m[0]), rest)
        out.append(front + rest)
    words = set(re.findall(r"\w+", re.sub(r"//.*", "", text)))
    for old, new in images.items():
        if new in words:
            together[(str(path), old, new)] += 1
    return "\n".join(out)


def put(path, old, new):
    new = re.sub(r"\.specs\.code(?=[.;\s])", ".specs.Code", new)
    new = re.sub(r"^((?:pub )?mod) code$", r"\1 Code", new, flags=re.M)
    if new != old and not check:
        path.write_text(new)


def tactics(path):
    """The line #![tactic(auto)] below the comment at the head of a root file."""
    lines = path.read_text().split("\n")
    if not check and "#![tactic(auto)]" not in lines:
        first = next((i for i, line in enumerate(lines) if line.strip() and not line.startswith("//")), len(lines))
        lines[first:first] = ["#![tactic(auto)]", ""]
        path.write_text("\n".join(lines))


if __name__ == "__main__":
    for path in files():
        old = path.read_text()
        put(path, old, antt(old, path))
    for crate in crates:
        for path in sorted((root / "crates" / crate / "src").rglob("*.rt")):
            old = path.read_text()
            put(path, old, rattle(old, path))
        for name in ("lib.rt", "main.rt"):
            if (root / "crates" / crate / "src" / name).exists():
                tactics(root / "crates" / crate / "src" / name)
        for path in sorted((root / "crates" / crate / "must-fail").glob("*.edit")):
            old = path.read_text()
            new = TOKEN.sub(lambda m: spelled(m[0]) if m[0] in turns else m[0], old)
            new = new.replace("file: specs/code/", "file: specs/Code/")
            if new != old and not check:
                path.write_text(new)
        for part in ("specs", "proofs"):
            for name in ("code", "code.antt"):
                path = root / "crates" / crate / part / name
                if path.exists() and not check:
                    subprocess.run(["git", "mv", str(path), str(path.with_name(name.replace("code", "Code")))], check=True)
    for (path, old, new), _ in sorted(together.items()):
        print(f"together: {path}: {old} and {new}")
    print(f"{len(turns)} names")
