#!/usr/bin/env python3
"""usage: tools/spell.py [--dry]    at the repository's top, once, right after port.py

Spells the repository's own definitions, fields and lemmas as today's Rattle does: words in snake case, without dashes. Names of types, of FIPS 180-4's
constants, of functions of src/ and of the kit stay. Two crates that have a name of the kit's libraries get another. Must-fail edits are spelled alike."""
import glob
import os
import re
import subprocess
import sys

CRATES = {"sha1": "sha1_hash", "hex": "hex_digits"}
TOKEN = r"[^\s(){}\[\],;.:=`\"]"
# A name that would fall together with another one in scope, and what it is called instead. A lemma that would have a definition's name ends in _lem.
OTHER = {"slice-of": "slice_of_log"}


def read(path):
    with open(path, encoding="utf-8") as f:
        return f.read()


def own_files():
    return sorted(glob.glob("crates/*/specs/**/*.antt", recursive=True) + glob.glob("crates/*/proofs/*.antt"))


def all_files():
    return sorted(
        glob.glob("crates/*/src/**/*.rt", recursive=True)
        + glob.glob("crates/*/specs/**/*.antt", recursive=True)
        + glob.glob("crates/*/proofs/**/*.antt", recursive=True)
    )


def declared(text):
    """The names that a file of definitions or lemmas declares, each with whether it is a record's field."""
    inside = False
    for line in text.split("\n"):
        if re.match(r"(pub |abbrev |unfoldable )*(record|data) ", line):
            inside = True
        elif line and not line.startswith(" "):
            inside = False
        m = re.match(r"^( *)((?:(?:pub|abbrev|unfoldable|record|data) )*)([^\s:(){}.,=λ]+(?: [^\s:(){}.,=λ]+)*)((?: [({].*)?) : ?(.*)", line)
        if m and not line.strip().startswith("--"):
            for name in m.group(3).split():
                if name not in ("use", "module", "let", "elim", "in"):
                    yield name, inside and bool(m.group(1))


def snake(name):
    if name in OTHER:
        return OTHER[name]
    if name[0].isupper() and "-" not in name:
        return name
    new = re.sub(r"([a-z0-9])([A-Z])", lambda m: m.group(1) + "_" + m.group(2).lower(), name)
    return new.replace("-", "_")


def tokens(text):
    return set(re.findall(TOKEN + "+", text))


def renames():
    names, specs, lemmas, fields = {}, set(), set(), set()
    for path in own_files():
        for name, field in declared(read(path)):
            (fields if field else specs if "/specs/" in path else lemmas).add(name)
    for name in specs | fields | lemmas:
        if snake(name) != name:
            names[name] = snake(name)
    taken = {snake(name) for name in (specs | fields) if snake(name) != name} | {name for name in specs}
    for name in lemmas - specs - fields:
        if snake(name) in taken and name not in OTHER and name[0].islower():
            if any(snake(s) == snake(name) and s != name and re.search("[A-Z-]", s + name) for s in specs | fields):
                names[name] = snake(name) + "_lem"
    return names


def kits(text):
    """The names that a file takes from the kit."""
    out = set()
    for m in re.finditer(r"^(?:ghost )?use (\S+?)\.\{([^}]*)\}", text, re.M):
        crate = re.match(r"Rattle\.(\w+)\.", m.group(1))
        if not (crate and os.path.isdir("crates/" + crate.group(1))):
            out |= {n.strip() for n in m.group(2).split(",")}
    return out


def spelled(text, names, kept):
    def one(m):
        t = m.group(0)
        return t if t in kept else names.get(t, t)

    return re.sub(TOKEN + "+", one, text)


def crated(text):
    for old, new in CRATES.items():
        text = re.sub(r"\bRattle\.%s\b" % old, "Rattle." + new, text)
        text = re.sub(r"(?<![\w.])%s::" % old, new + "::", text)
    return text


def main():
    dry = "--dry" in sys.argv
    names = renames()
    back = {}
    for old, new in names.items():
        back.setdefault(new, []).append(old)
    for new, olds in sorted(back.items()):
        if len(olds) > 1:
            print("look: fall together:", new, olds)
    have = {}
    for path in all_files():
        text = read(path)
        kept = kits(text)
        ts = tokens(text)
        for old in sorted(ts & set(names)):
            if old not in kept and names[old] in ts:
                print("look: %s has both %s and %s" % (path, old, names[old]))
        new = crated(spelled(text, names, kept))
        if new != text:
            have[path] = new
    for path in sorted(glob.glob("crates/*/must-fail/*.edit")):
        text = read(path)
        new = crated(spelled(re.sub(r"(?<=[\w)'₀-₉]) \.(?=\w)", ".", text), names, set()))
        if new != text:
            have[path] = new
    print("%d names, %d files" % (len(names), len(have)))
    if dry:
        return
    for path, text in have.items():
        with open(path, "w", encoding="utf-8") as f:
            f.write(text)
    for old, new in CRATES.items():
        subprocess.run(["git", "mv", "crates/" + old, "crates/" + new], check=True)
    lines = read("crates.txt").split("\n")
    lines = [l if l.startswith("#") else re.sub(r"(?<![\w])(%s)(?![\w])" % "|".join(CRATES), lambda m: CRATES[m.group(1)], l) for l in lines]
    with open("crates.txt", "w", encoding="utf-8") as f:
        f.write("\n".join(lines))


main()
