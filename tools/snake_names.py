#!/usr/bin/env python3
"""Brings this repository's own definitions, lemmas and fields to the spelling of today's Rattle: snake case.

usage: tools/snake_names.py            at the top of the repository, once, after the toolchain's port.py

A name that is declared in specs/, or in proofs/ and is no goal of the check's, gets its capitals and dashes turned to underscores, wherever it
stands in crates/ (sources, must-fail edits) and, between backquotes, in README.md, docs/ and comments. Edits and papers get the names that port.py
turned, too. Names that begin with a capital are types, facts and modules and stay; so do names that the library has. A lemma whose new name a
definition has gets `_lem`, and a few names are given one by hand.
"""

import os
import re
import sys

# Names that the rule turns badly, or to the name of something else.
GIVEN = {"image-length": "image_length", "roots-first": "roots_are_first", "size-of": "size_is", "all_get_d": "all_get_or"}

# A field and a definition of one name, which no file can mistake for one another.
APART = {"image_length"}

# Lemmas to which port.py gave what is now a definition's name, each with the module that declares it.
LEMMAS = [
    ("both_right", "Rattle.format.proofs.Laws"),
    ("bytes_low", "Rattle.format.proofs.Widths"),
    ("place_of", "Rattle.format.proofs.Select"),
    ("word_at", "Rattle.listing.proofs.TableLaws"),
]

WORD = r"[^\s(){}\[\],;.`]"
DECLARED = re.compile(r"^\s*((?:pub |abbrev |unfoldable )*)([^\s:(){}]+(?: [^\s:(){}]+)*)(?: \{ℓ\})? :(?: |$)")
MADE = re.compile(r"(-spec|-requires|-preserved|-init|-smaller)(-\d+)?$|^(returns|loop|invariant|decreases|overflow|ghost)(-|$)|^\+")


# variables that stand in an edit or a statement, and a field that a proof names a goal by
LOCAL = {"countFault", "contentsFault", "wrongCount", "not-threes"}


def files(root, endings):
    for folder, dirs, names in os.walk(root):
        dirs[:] = sorted(d for d in dirs if d not in ("out", ".git", "target"))
        for name in sorted(names):
            if name.endswith(endings):
                yield os.path.join(folder, name)


def snake(name):
    name = name.replace("getElem", "get_elem").replace("getD", "get_or")
    name = re.sub(r"([a-z0-9])([A-Z])", lambda m: m.group(1) + "_" + m.group(2).lower(), name)
    return name.replace("-", "_")


def own_names(root):
    names, library, made = set(LOCAL), set(), set()
    for path in files(os.path.join(root, "crates"), (".antt", ".rt")):
        text = open(path, encoding="utf-8").read()
        for module, items in re.findall(r"use ([\w.+'·-]+)\.\{([^}]*)\}", text):
            own = module.startswith("Rattle.") and not module.startswith(("Rattle.std.", "Rattle.core."))
            if not own:
                library |= {i.split(" as ")[0].strip() for i in items.split(",")}
        if not path.endswith(".antt"):
            continue
        for line in text.splitlines():
            m = DECLARED.match(line)
            if not m or line.lstrip().startswith(("--", "let ")):
                continue
            for name in m.group(2).split():
                if "tie.Need-" in line or "goal." in line or " statement " in line or MADE.search(name):
                    made.add(name)
                else:
                    names.add(name)
    return names, library, made


def name_lemmas(root):
    for name, module in LEMMAS:
        _, crate, _, file = module.split(".")
        word = re.compile(r"(?<![\w'.-])" + name + r"(?![\w'-])")
        for path in files(os.path.join(root, "crates"), (".antt",)):
            text = open(path, encoding="utf-8").read()
            declares = path.endswith(os.path.join("crates", crate, "proofs", file + ".antt"))
            imports = re.search(r"(?m)^use " + re.escape(module) + r"\.\{[^}]*(?<![\w'-])" + name + r"(?![\w'-])", text)
            if declares or imports:
                open(path, "w", encoding="utf-8").write(word.sub(name + "_lem", text))


def main():
    root = "."
    if "--dry" not in sys.argv:
        name_lemmas(root)
    names, library, made = own_names(root)
    turned = {}
    for name in sorted(names):
        if name[0].isupper() or name in library or (name in made and name not in LOCAL) or "◌" in name:
            continue
        new = GIVEN.get(name, snake(name))
        if name not in GIVEN and "-" in name and (new in names or any(snake(n) == new for n in names if n != name and "-" not in n)):
            new += "_lem"
        if new != name:
            turned[name] = new
    taken = {}
    for old, new in turned.items():
        taken.setdefault(new, []).append(old)
    clash = False
    for new, olds in sorted(taken.items()):
        if new not in APART and (new in names or new in library or len(olds) > 1):
            print("falls together:", new, "from", *olds, "(taken)" if new in names else "", "(library)" if new in library else "")
            clash = True
    if clash or "--dry" in sys.argv:
        print(len(turned), "names")
        return 1 if clash else 0
    one = re.compile("(?<![\\w'-])(" + "|".join(re.escape(n) for n in sorted(turned, key=len, reverse=True)) + ")(?![\\w'-])")

    # what port.py turned has its new name in the sources and its old one in the papers
    now = (names - set(turned)) | set(turned.values())
    anyone = re.compile(r"(?<![\w'-])[a-z][\w'-]*(?![\w'-])")

    def turn(text):
        return one.sub(lambda m: turned[m.group(1)], text) if turned else text

    def turn_all(text):
        return anyone.sub(lambda m: snake(m.group(0)) if m.group(0) not in now and snake(m.group(0)) in now else m.group(0), turn(text))

    def quoted(text):
        return re.sub(r"`[^`\n]*`", lambda m: turn_all(m.group(0)), text)

    def source(text, mark):
        out = []
        for line in text.split("\n"):
            code, sep, comment = line.partition(mark)
            out.append(turn(code) + sep + quoted(comment))
        return "\n".join(out)

    for path in files(os.path.join(root, "crates"), (".antt", ".rt", ".edit")):
        text = open(path, encoding="utf-8").read()
        new = source(text, "--" if path.endswith(".antt") else "// ") if not path.endswith(".edit") else turn_all(text)
        if new != text:
            open(path, "w", encoding="utf-8").write(new)
    for path in [os.path.join(root, "README.md"), *files(os.path.join(root, "docs"), (".md",))]:
        text = open(path, encoding="utf-8").read()
        if quoted(text) != text:
            open(path, "w", encoding="utf-8").write(quoted(text))
    print(len(turned), "names turned")
    return 0


if __name__ == "__main__":
    raise SystemExit(main())
