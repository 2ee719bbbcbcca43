#!/usr/bin/env python3
"""Brings the names of this repository's definitions and lemmas to snake case, in specs/, proofs/, ghost lines and edits.

usage: python3 tools/respell.py [--list]     at the top of the repository, once, right after the port to today's Rattle

A name is one that a specs/ or proofs/ file declares: a definition, a lemma, a constructor, a field or a local one. Types, facts and
modules keep their camel case, and the names of src/ their spelling. With --list nothing is written.
"""

import collections
import os
import re
import sys

# Names that would fall together with another by the rule, or read badly.
CHOSEN = {
    "getD-pad": "get_or_pad",
    "getD-zeros": "get_or_zeros",
    "answerAt": "answer_at_entry",
    "entryPlace": "place_of_entry",
    "numbersOf": "numbers_of_item",
    "clips-fit": "clips_fit_lem",
    "entry-size": "entry_size_lem",
    "header-back": "header_back_lem",
    "header-length": "header_length_lem",
    "item-end": "item_end_lem",
    "name-fits": "name_fits_lem",
    "name-reached": "name_reached_lem",
    "read-end": "read_end_lem",
    "right-clip": "right_clip_lem",
    "same-lengths": "same_lengths_lem",
    "scanner-end": "scanner_end_lem",
    "skip-index": "skip_index_lem",
    "steps-start": "steps_start_lem",
    "string-end": "string_end_lem",
    "whole-file": "whole_file_lem",
    "no-row": "no_row_lem",
}
NAME = r"[\w'\u2032-]+"
GENERATED = ("Proof.antt", "Answers.antt", "Invariants.antt")
DECLARATION = re.compile(r"^ *(?:(?:abbrev|unfoldable|pub) +)*(" + NAME + r") :(?= |$)", re.M)
# several names before one colon: the constructors or fields of a type, or the parameters of a module
SEVERAL = re.compile(r"^ +(?:pub )?((?:" + NAME + r" )+): ", re.M)


def files(top, endings):
    for folder, folders, names in os.walk(os.path.join(top, "crates")):
        folders[:] = sorted(it for it in folders if it != "out")
        for name in sorted(names):
            if name.endswith(endings):
                yield os.path.join(folder, name)


def snake(name):
    name = CHOSEN.get(name, name)
    name = re.sub(r"(?<=[a-z0-9])(?=[A-Z])", "_", name)
    return name.replace("-", "_").lower()


def declared(top):
    names = set()
    for path in files(top, (".antt",)):
        if os.path.basename(path) in GENERATED and "/proofs/" in path:
            continue
        with open(path, encoding="utf-8") as file:
            text = file.read()
        names.update(found.group(1) for found in DECLARATION.finditer(text))
        for found in SEVERAL.finditer(text):
            names.update(found.group(1).split())
    return {name for name in names if name[0].islower() and snake(name) != name}


def respelled(text, names):
    """Each token that is a name; one behind a dot only as a camel-case field, or behind a module's name."""

    def turn(found):
        token = found.group(0)
        if token not in names:
            return token
        before = text[: found.start()]
        if before.endswith(".") and "-" in token and not re.search(r"(?<![\w'-])[A-Z]\w*\.$", before[-80:]):
            return token
        return snake(token)

    return re.sub(r"(?<![\w'\u2032\u25cc-])" + NAME, turn, text)


def main():
    top = os.getcwd()
    names = declared(top)
    fallen = collections.defaultdict(set)
    for name in names:
        fallen[snake(name)].add(name)
    for path in files(top, (".antt", ".rt", ".edit")):
        with open(path, encoding="utf-8") as file:
            text = file.read()
        tokens = set(re.findall(r"(?<![\w'\u2032\u25cc-])" + NAME, text))
        turned = respelled(text, names)
        for name in sorted(tokens & names):
            if snake(name) in tokens:
                print(f"together: {os.path.relpath(path, top)}: {name} and {snake(name)}")
        if turned != text and "--list" not in sys.argv:
            with open(path, "w", encoding="utf-8") as file:
                file.write(turned)
    for name, old in sorted(fallen.items()):
        if len(old) > 1:
            print(f"together: {name}: {' '.join(sorted(old))}")
    print(f"respelled {len(names)} names")


if __name__ == "__main__":
    main()
