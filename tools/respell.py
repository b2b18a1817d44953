#!/usr/bin/env python3
"""Respells this repository's own definitions and lemmas: words in snake case, types in camel case.

Run once, at the top of the repository, after the toolchain's port script. A function, a field of a record or a constructor that specs/ or
proofs/ defines, and what an import is called, has its words joined by '_'; in a lemma a dash stays where it joins two names of definitions. Names of src/, of std and of
generated goals stay. Files are rewritten in place; what fell together is listed and nothing is written then.
"""

import glob
import re
import sys

WORD = r"[A-Za-z0-9_'₀-₉-]+"
HEAD = re.compile(r"^(\s*)((?:(?:pub|abbrev|unfoldable|record|data) )*)(" + WORD + r")((?:\s+\([^()]*\)|\s+\{[^{}]*\})*)\s*:")
KEYWORDS = {"let", "in", "where", "use", "mod", "elim", "rw", "record", "λ"}
# names of the library that lemmas are named after
LIBRARY = set("length take drop set get_or append replicate map any all cond not suc zero none some true false".split())


def antt(kind):
    return sorted(glob.glob(f"crates/*/{kind}/**/*.antt", recursive=True))


def snake(part):
    part = re.sub(r"(?<=[a-z0-9])([A-Z])", lambda m: "_" + m.group(1).lower(), part)
    return part


def camel(name):
    return "".join(p[:1].upper() + p[1:] for p in re.split("[-_]", name))


def main():
    defined, goals = {}, set()
    for kind in ("specs", "proofs"):
        for path in antt(kind):
            with open(path, encoding="utf-8") as f:
                text = f.read()
            goals |= set(re.findall(r"\b(?:goal|given)\.(" + WORD + ")", text))
            for line in text.split("\n"):
                m = HEAD.match(line)
                if m and m.group(3) not in KEYWORDS:
                    defined.setdefault(m.group(3), set()).add(kind)
    own = {n for n in defined if n not in goals}
    names = {snake(n) for n in own if "specs" in defined[n] and "-" not in n} | LIBRARY
    new = {}
    for name in own:
        if name[0].isupper():
            to = camel(name) if "-" in name else name
        else:
            parts = [snake(p) for p in name.split("-")]
            to = parts[0]
            for before, after in zip(parts, parts[1:]):
                keep = "specs" not in defined[name] and before in names and after in names
                to += ("-" if keep else "_") + after
        if to in own and to != name and "specs" not in defined[name]:
            to += "_lem"
        if to != name:
            new[name] = to
    # a lemma that has the new name of a definition
    for name in own:
        if name not in new and "specs" not in defined[name] and name in {new[n] for n in new if "specs" in defined[n]}:
            new[name] = name + "_lem"
    # what an import is called here
    for path in antt("specs") + antt("proofs") + sorted(glob.glob("crates/*/src/**/*.rt", recursive=True)):
        with open(path, encoding="utf-8") as f:
            for alias in re.findall(r"\bas (" + WORD + ")", f.read()):
                if alias[0].isupper() and "-" in alias:
                    new[alias] = camel(alias)
                elif alias[0].islower() and snake(alias).replace("-", "_") != alias:
                    new[alias] = snake(alias).replace("-", "_")
    files = antt("specs") + antt("proofs") + sorted(glob.glob("crates/*/src/**/*.rt", recursive=True)) + sorted(glob.glob("crates/*/must-fail/*.edit"))
    fields = set()
    for kind in ("specs", "proofs"):
        for path in antt(kind):
            with open(path, encoding="utf-8") as f:
                fields |= {m.group(1) for m in re.finditer(r"^  (?:pub )?(" + WORD + r") :", f.read(), re.M)}
    clash, texts = [], {}
    for path in files:
        with open(path, encoding="utf-8") as f:
            text = f.read()
        seen = set(re.findall(r"(?<![\w'-])" + WORD, text))
        turned = {}
        for old in sorted(seen & set(new)):
            if (new[old] in seen and new[old] not in new and not path.endswith((".rt", ".edit"))) or new[old] in turned:
                clash.append(f"{path}: {old} -> {new[old]}, which stands there")
            turned[new[old]] = old
        lines = []
        for line in text.split("\n"):
            out, at = "", 0
            for m in re.finditer(r"(?<![\w'-])" + WORD, line):
                word = m.group(0)
                before = line[m.start() - 1] if m.start() else ""
                put = word
                if word in new and not (before == "." and word not in fields):
                    put = new[word]
                out += line[at : m.start()] + put
                at = m.end()
            lines.append(out + line[at:])
        if "\n".join(lines) != text:
            texts[path] = "\n".join(lines)
    for c in clash:
        print(c)
    if clash and "--anyway" not in sys.argv:
        print(f"{len(clash)} fall together; nothing written")
        return 1
    if "--list" in sys.argv:
        for old in sorted(new):
            print(old, "->", new[old])
        return 0
    for path, text in texts.items():
        with open(path, "w", encoding="utf-8") as f:
            f.write(text)
    print(f"{len(new)} names, {len(texts)} files")
    return 0


sys.exit(main())
