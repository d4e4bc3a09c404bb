#!/usr/bin/env python3
"""Brings this repository's own definitions and lemmas to the kit's spelling, once, after port.py.

usage: tools/respell.py [--check]      at the top of the repository

A name that an .antt file of specs/ or proofs/ declares is written in snake case: fieldJudged and
field-judged become field_judged. Types and modules keep their capitals, and so does everything that
the kit or a .rt file declares. The files of specs/, proofs/ and must-fail/, the clauses of src/ and
the names that README.md and docs/ cite are turned; names in strings stay. It stops, and writes
nothing, where two names would fall together, or one would fall on a name that its file imports.
"""
import collections
import glob
import os
import re
import sys

WORD = r"[^\s(){}.;,@\"«»`\[\]\\:⌜⌝∷]+"
DECLARES = re.compile(r"^\s*(?:(?:abbrev|unfoldable|pub|opaque|ruleset)\s+)*(" + WORD + r")((?:\s*\{[^}]*\}|\s*\([^()]*\))*)\s*(:(?!:)|=)")
TOKEN = re.compile(r"--[^\n]*|\"(?:[^\"\\]|\\.)*\"|" + WORD)
IN_CODE = re.compile(r"//[^\n]*|b?\"(?:[^\"\\]|\\.)*\"|" + WORD, re.S)
# names that follow the kit's own pattern: proofs of functions end in _spec, operators and tactics stay
KEPT = set("else in let where module use data record elim with rw simp omega search".split())


def snake(name):
    name = name.replace("-", "_")
    name = re.sub(r"(?<=[a-z0-9₀-₉])(?=[A-Z])", "_", name)
    name = re.sub(r"(?<=[A-Z])(?=[A-Z][a-z])", "_", name)
    name = re.sub(r"(?<=[a-z])_?(?=711|533)", "_", name)
    return re.sub(r"_+", "_", name.lower())


def read(path):
    with open(path, encoding="utf-8", newline="") as it:
        return it.read()


def lemma_files():
    return sorted(glob.glob("crates/*/specs/**/*.antt", recursive=True) + glob.glob("crates/*/proofs/*.antt"))


def all_antt():
    return sorted(p for p in glob.glob("crates/*/*/**/*.antt", recursive=True) if "/out/" not in p)


def declared(files=None):
    names = collections.Counter()
    for path in lemma_files() if files is None else files:
        for line in read(path).split("\n"):
            if line.lstrip().startswith("--") or line.lstrip().startswith(("use ", "pub use ")):
                continue
            found = DECLARES.match(line)
            if found and found.group(3) == ":":
                names[found.group(1)] += 1
    return names


def aliases():
    """Names that a file's imports give, as in `{checksum as sumOfRecords}`."""
    of_code = glob.glob("crates/*/src/**/*.rt", recursive=True)
    return {it for path in all_antt() + of_code for it in re.findall(r" as ([a-z]+[A-Z]\w*)", read(path))}


def renames():
    turned = {}
    for name in set(declared()) | aliases():
        if not re.match(r"^[a-z]", name) or name in KEPT:
            continue
        if not ("-" in name or re.search(r"[A-Z]", name)):
            continue
        if not re.fullmatch(r"[A-Za-z0-9_'-]+", name):
            continue
        new = snake(name)
        if new != name:
            turned[name] = new
    return turned | lemmas_aside(turned)


def lemmas_aside(turned):
    """Of names that fall together the definition has the plain name, and a lemma ends in _lem."""
    every, of_specs = declared(), declared([p for p in lemma_files() if "/specs/" in p])
    groups = collections.defaultdict(set)
    for name in every:
        groups[turned.get(name, name)].add(name)
    aside = {}
    for new, olds in groups.items():
        defined = [it for it in olds if it in of_specs]
        plain = defined[0] if len(defined) == 1 else sorted(olds, key=lambda it: ("-" in it, not re.search("[A-Z]", it)))[0]
        for old in olds - {plain}:
            aside[old] = new + "_lem"
    return aside


def fields():
    """The fields of this repository's records: these are turned behind a dot too."""
    found = set()
    for path in all_antt():
        inside = None
        for line in read(path).split("\n"):
            depth = len(line) - len(line.lstrip())
            if re.match(r"\s*(abbrev )?(pub )?record ", line):
                inside = depth
            elif inside is not None and line.strip() and depth <= inside:
                inside = None
            elif inside is not None:
                field = re.match(r"\s*(?:pub )?(" + WORD + r") :", line)
                if field:
                    found.add(field.group(1))
    return found


def of_the_kit(text):
    """The names that a file imports from the kit's libraries: there they keep their spelling."""
    own = {os.path.basename(it) for it in glob.glob("crates/*")}
    out = set()
    for module, block in re.findall(r"use ([\w.]+)\.\{([^}]*)\}", text):
        parts = module.split(".")
        if parts[0] != "Rattle" or parts[1] not in own:
            out |= {it.strip().split(" as ")[0] for it in block.split(",")}
    return out


def imports(text):
    out = set()
    for block in re.findall(r"use [^\n{]*\{([^}]*)\}", text):
        for it in block.split(","):
            it = it.strip()
            out.add(it.split(" as ")[-1].strip())
    return out


def turn(text, names, token, of_records=frozenset()):
    """Each whole word in names is turned; one without a capital stays where it is a field, since it may be a made name."""
    def one(found):
        word = found.group(0)
        if word.startswith("--") or word.startswith("//") or word[:1] == '"' or word[:2] == 'b"':
            return word
        if word not in names:
            return word
        if word not in of_records and not re.search("[A-Z]", word) and text[found.start() - 1 : found.start()] == "." and not re.search(r"[A-Z]\w*\.$", text[: found.start()][-60:]):
            return word
        return names[word]

    return token.sub(one, text)


def main():
    names = renames()
    backwards = collections.defaultdict(set)
    for old, new in names.items():
        backwards[new].add(old)
    every = declared()
    together = {new: sorted(olds) for new, olds in backwards.items() if len(olds) > 1 or (new in every and new not in names)}
    if together:
        print("two names fall together:")
        for new, olds in sorted(together.items()):
            print(" ", new, olds, "declared already" if new in every else "")
    wrong = 0
    changes = {}
    of_records = fields() & {it for it in names if "-" in it}
    for path in all_antt() + sorted(glob.glob("crates/*/must-fail/*.edit")):
        text = read(path)
        foreign = of_the_kit(text)
        of_code = path.endswith(".edit") and "file: src/" in text
        here = {old: to for old, to in names.items() if old not in foreign and not (of_code and re.fullmatch(r"[a-z0-9_]+", old))}
        new = turn(text, here, TOKEN, of_records)
        was, now = imports(text), imports(new)
        if len(now) < len(was):
            wrong += 1
            print(f"{path}: imports fall together: {sorted(collections.Counter(names.get(w, w) for w in was).items(), key=lambda it: -it[1])[:3]}")
        if new != text:
            changes[path] = new
    for path in sorted(glob.glob("crates/*/src/**/*.rt", recursive=True)):
        text = read(path)
        new = turn(text, {old: to for old, to in names.items() if "-" in old or re.search("[A-Z]", old)}, IN_CODE)
        if new != text:
            changes[path] = new
    cited = re.compile(r"(`[a-z0-9_]+:[A-Za-z0-9_.]+\.)(" + WORD + r")(?=`)")
    for path in ["README.md"] + sorted(glob.glob("docs/**/*.md", recursive=True)):
        text = read(path)
        new = cited.sub(lambda it: it.group(1) + names.get(it.group(2), it.group(2)), text)
        if new != text:
            changes[path] = new
    print(f"{len(names)} names, {len(changes)} files")
    if together or wrong:
        return 1
    if "--check" not in sys.argv:
        for path, text in changes.items():
            with open(path, "w", encoding="utf-8", newline="") as it:
                it.write(text)
    return 0


if __name__ == "__main__":
    sys.exit(main())
