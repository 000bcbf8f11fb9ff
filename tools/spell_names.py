#!/usr/bin/env python3
"""Spells the repository's own definitions and lemmas in snake case: isNonBlank becomes is_non_blank, and isNonBlank-not is_non_blank-not.

usage: python3 tools/spell_names.py          at the top of the repository, once, after the kit's port.py

It turns whole words, in the .antt and .rt files of crates/ and in the pages that speak of them. Types and modules keep their names, and so does
what a crate of the kit declares. It stops, before it writes, where two names would fall together or a new one is in use already. APART lists the
lemmas that port.py spelled as a definition is to be spelled: they get their hyphen back.
"""

import os
import re
import sys

WORD = re.compile(r'[^\s(){}\[\].;,@"«»`:]+')
DECLARED = re.compile(r'^ *(?:(?:abbrev|unfoldable|pub) )*([^\s(){}.;,@"«»]+)(?: \{[^{}\n]*\})* : ')
CAMEL = re.compile(r"(?<=[a-z0-9])[A-Z]")
IMPORT = re.compile(r"^(?:ghost )?use (\S+?)\.\{([^}]*)\}")
APART = {
    "crates/reading/proofs/Laws/ElementSteps.antt": ["next_place", "place_after"],
    "crates/reading/proofs/Laws/Steps.antt": ["next_place"],
    "crates/table/proofs/Proper/Unique.antt": ["none_of"],
    "crates/stream/proofs/Laws/AsRead.antt": ["as_read"],
    "crates/stream/proofs/Promises.antt": ["as_read", "goes_on"],
}
PAGES = ["README.md", "docs/ARCHITECTURE.md", "docs/DECISIONS.md", "docs/BENCHMARK.md", "tests/README.md"]


def texts(kinds):
    for folder, inner, files in os.walk("crates"):
        inner[:] = sorted(it for it in inner if it != "out")
        for file in sorted(files):
            if file.endswith(kinds):
                yield os.path.join(folder, file)


def read(path):
    with open(path, encoding="utf-8") as file:
        return file.read()


def write(path, text):
    with open(path, "w", encoding="utf-8") as file:
        file.write(text)


def spelled(name):
    return CAMEL.sub(lambda it: "_" + it[0].lower(), name)


def table():
    """Each name of the repository's own that changes, with its new spelling."""
    names, imported, used = set(), {}, {}
    own = set(os.listdir("crates"))
    for path in texts((".antt", ".rt")):
        text = read(path)
        for line in text.splitlines():
            if path.endswith(".antt") and (it := DECLARED.match(line)):
                names.add(it[1])
            if it := IMPORT.match(line):
                steps = it[1].split(".")
                if steps[0] != "Rattle" or steps[1] not in own:
                    imported.update((name.strip(), path) for name in it[2].split(","))
        if path.endswith("/Proof.antt"):
            continue  # it cites the steps of a function's code, which have its callees' names
        for line in text.splitlines():
            if not line.lstrip().startswith("--") and not (path.endswith(".antt") and line.startswith("use ")) and path.endswith(".antt"):
                used.update((word, path) for word in WORD.findall(line))
    turned = {it: spelled(it) for it in names if it[0].islower() and CAMEL.search(it)}
    wrong = [f"{it}: also imported in {imported[it]}" for it in turned if it in imported]
    wrong += [f"{new}: in use in {path}" for new in turned.values() if (path := used.get(new))]
    by_new = {}
    for old, new in turned.items():
        by_new.setdefault(new, []).append(old)
    wrong += [f"{new}: {', '.join(olds)}" for new, olds in by_new.items() if len(olds) > 1]
    return turned, wrong


def main():
    for path, names in APART.items():
        if os.path.exists(path):
            back = {it: it.replace("_", "-") for it in names}
            write(path, WORD.sub(lambda it: back.get(it[0], it[0]), read(path)))
    turned, wrong = table()
    if wrong:
        print("\n".join(sorted(wrong)), file=sys.stderr)
        return 1
    for path in [*texts((".antt", ".rt")), *[it for it in PAGES if os.path.exists(it)]]:
        text = read(path)
        new = WORD.sub(lambda it: turned.get(it[0], it[0]), text)
        if new != text:
            write(path, new)
    print(f"{len(turned)} names turned")
    return 0


if __name__ == "__main__":
    raise SystemExit(main())
