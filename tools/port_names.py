#!/usr/bin/env python3
"""Brings the names of this repository to the spelling that today's Rattle asks for. Ran once, right after the kit's port.py.

usage: python3 tools/port_names.py          at the top of the repository

- The crate `bytes` has the name of a library of the kit: it is `octets`.
- Definitions, lemmas and fields in camel case (`isLine`) are in snake case (`is_line`), in proof files, clauses, must-fail edits and documents.
  Types and modules keep their names, and so does every name of src/.
- A small plain type is `Copy`: what was `#[derive(Drop)]` is `#[derive(Clone, Copy)]`.
- Each crate's root file begins with `#![tactic(auto)]`.

It prints the names that fall together: two words that become one, and a parameter that hides a word of its own clauses.
"""

import os
import re
import shutil

OLD_CRATE, NEW_CRATE = "bytes", "octets"
TEXTS = (".antt", ".rt", ".edit")
# Lemmas that would have the name of a definition, once that is in snake case, in one scope with it.
LEMMAS = ("is_digit", "after_line", "with_byte", "first_byte", "cut_short", "cut_step", "too_long", "due_in")
LEMMA = re.compile(rf"(?<![.\w'-])(?:{'|'.join(LEMMAS)})(?![.\w'-])")
WORD = re.compile(r"(?<![\w'\"\\])[A-Za-z_][\w'₀-₉]*(?:-[\w'₀-₉]+)*")
# A text in quotes is matched whole, so that no word of it is turned.
TEXT_OR_WORD = re.compile(rf"\"(?:[^\"\\\n]|\\.)*\"|{WORD.pattern}")


def files(top, endings):
    for folder, folders, names in os.walk(top):
        folders[:] = sorted(f for f in folders if f not in ("out", "target", ".git"))
        for name in sorted(names):
            if name.endswith(endings):
                yield os.path.join(folder, name)


def read(path):
    with open(path, encoding="utf-8") as file:
        return file.read()


def write(path, text):
    with open(path, "w", encoding="utf-8") as file:
        file.write(text)


def snake(word):
    """A word of several parts: each part that begins in lower case is in snake case. A byte, as b'A', is no word."""
    if re.search(r"'\w", word):
        return word
    parts = []
    for part in word.split("-"):
        if re.match(r"[a-z]", part) and re.search(r"[A-Z]", part):
            part = re.sub(r"(?<=[a-z0-9])(?=[A-Z])|(?<=[A-Z])(?=[A-Z][a-z])", "_", part).lower()
        parts.append(part)
    return "-".join(parts)


def rename_crate():
    folder = os.path.join("crates", OLD_CRATE)
    if os.path.isdir(folder):
        shutil.move(folder, os.path.join("crates", NEW_CRATE))
    for path in files("crates", TEXTS):
        text = read(path)
        turned = re.sub(rf"\bRattle\.{OLD_CRATE}\.", f"Rattle.{NEW_CRATE}.", text)
        turned = re.sub(rf"\b{OLD_CRATE}::", f"{NEW_CRATE}::", turned)
        if turned != text:
            write(path, turned)
    lines = [
        line if line.startswith("#") else re.sub(rf"\b{OLD_CRATE}\b", NEW_CRATE, line)
        for line in read("crates.txt").split("\n")
    ]
    write("crates.txt", "\n".join(lines))


def words():
    """Each word of the crates that changes, and where each word is found."""
    found = {}
    for path in files("crates", TEXTS):
        for word in WORD.findall(read(path)):
            found.setdefault(word, set()).add(path)
    return {word: snake(word) for word in found if snake(word) != word}, found


def turn_words(table):
    for path in files("crates", TEXTS):
        text = read(path)
        if path.endswith(".antt"):
            text = LEMMA.sub(lambda m: m.group(0) + "_lem", text)
        turned = TEXT_OR_WORD.sub(lambda m: table.get(m.group(0), m.group(0)), text)
        if turned != read(path):
            write(path, turned)


def plain(word):
    """What two spellings of a name have in common."""
    return re.sub(r"[-_]", "", word).lower()


def turn_documents():
    """A name in quotes that the crates no longer have gets the spelling that they have."""
    _, found = words()
    back = {}
    for word in found:
        if re.match(r"[a-z]", word):
            back.setdefault(plain(word), set()).add(word)
    paths = [os.path.join("docs", f) for f in sorted(os.listdir("docs")) if f.endswith(".md")]
    for path in paths + [f for f in ("README.md", "CONTRIBUTING.md") if os.path.exists(f)]:
        def turned(match):
            word = match.group(0)
            others = back.get(plain(word), set())
            if word in found or not re.search(r"-|[a-z][A-Z]", word):
                return word
            if snake(word) in found:
                return snake(word)
            return next(iter(others)) if len(others) == 1 else word

        text = read(path)
        new = re.sub(r"`[^`\n]+`", lambda m: WORD.sub(turned, m.group(0)), text)
        if new != text:
            write(path, new)


def turn_derives():
    for path in files("crates", (".rt",)):
        text = read(path)
        turned = text.replace("#[derive(Drop)]", "#[derive(Clone, Copy)]")
        root = os.path.basename(path) in ("lib.rt", "main.rt")
        if root and "#![tactic(auto)]" not in turned:
            lines = turned.split("\n")
            at = next(i for i, line in enumerate(lines) if line and not line.startswith("//"))
            turned = "\n".join(lines[:at] + ["#![tactic(auto)]", ""] + lines[at:])
        if turned != text:
            write(path, turned)


def fall_together(table, found):
    back = {}
    for old, new in sorted(table.items()):
        back.setdefault(new, []).append(old)
    for new, olds in back.items():
        if len(olds) > 1:
            print(f"together: {' and '.join(olds)} are {new}")
        laws = [p for p in found.get(new, ()) if p.endswith(".antt") and not p.endswith("/Proof.antt")]
        if laws:
            print(f"look: {' '.join(olds)} is {new}, which {len(laws)} files of laws have: {' '.join(laws)}")
    for path in files("crates", (".rt",)):
        for match in re.finditer(r"\bfn (\w+)[^(]*\(([^{]*?)\{ ?(.*?)\n\{", read(path), re.S):
            names = set(re.findall(r"\b(\w+):", match.group(2)))
            for name in names & set(back):
                if re.search(rf"(?<!\.)\b{name}\b(?! :)", match.group(3)):
                    print(f"look: {path}: {match.group(1)} has a parameter {name}")


def main():
    rename_crate()
    table, found = words()
    fall_together(table, found)
    turn_words(table)
    turn_derives()
    turn_documents()
    print(f"{len(table)} words turned")


if __name__ == "__main__":
    main()
