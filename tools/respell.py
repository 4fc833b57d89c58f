#!/usr/bin/env python3
"""Brings the names of definitions and lemmas to the spelling of the language: words in snake case, types in camel case.

    tools/respell.py        at the top of the repository, once, after the language's own script for an older repository

A token in camel case that begins with a small letter is a word of this repository's definitions, and gets snake case: no function of src/, no string and
no exported name has that form. A lemma that would fall together with its definition gets the ending _lem, in the files that cite the lemma (LEMMAS).
Two definitions that are facts get a capital (FACTS).
"""
import glob
import re

EDGE = r"(?<![\w'′·?-])", r"(?![\w'′?-])"
# name of the lemma as it stands: files that cite it
LEMMAS = {
    "at_level": ["levels/specs/Laws/Planned"],
    "edges_room": ["deletion/proofs/without_edges/Proof", "deletion/proofs/without_nodes/Proof", "deletion/specs/Laws/Retained"],
    "has_code": ["rules/specs/Laws/RuleContents", "rules/specs/Laws/RuleLines", "rules/specs/Laws/RuleOrder"],
    "in_order": ["drawing_lines/specs/Laws/DrawingVerdict", "model/specs/Laws/SoundFiles"],
    "is_declared": ["model/specs/Laws/Kinds"],
    "most_bytes": ["model/specs/Laws/DrawingFiles", "model/specs/Laws/RuleTexts"],
    "no_difference": ["model/specs/Laws/Counts"],
    "node_row": ["model/specs/Laws/SavedFiles"],
    "number_at": ["edge_runs/specs/Laws/Running", "groups/specs/Laws/Grouping"],
    "place_of": ["model/specs/Laws/Places", "pattern_lines/specs/Laws/Patterns"],
    "rising_part": ["operations/specs/Laws/Slices"],
    "row_line": ["printing/specs/Laws/Written"],
    "rows_in": ["model/specs/Laws/DrawingFiles", "model/specs/Laws/SoundFiles", "reading/specs/Laws/DrawingLines"],
    "same_set": ["abstraction/specs/Laws/Leading", "lists/specs/Laws/Lists", "model/specs/Laws/Groups", "model/specs/Laws/Serves"],
    "size_fits": ["node_addition/proofs/with_nodes/Proof", "node_addition/specs/Laws/Adding"],
    "some_edges": ["model/specs/Laws/RuleActions"],
    "up_to": ["rule_lines/specs/Laws/RuleRows"],
}
FACTS = [
    ("standing/specs/Held", "above", "IsAbove"),
    ("standing/specs/Held", "room_for", "HasRoomFor"),
    ("rules/specs/Rules", "room_for", "HasRoomFor"),
]


def whole(name):
    return re.compile(EDGE[0] + re.escape(name) + EDGE[1])


def snake(token):
    def part(p):
        return re.sub(r"([a-z0-9])([A-Z])", lambda m: m[1] + "_" + m[2].lower(), p) if re.match("[a-z]", p) else p

    return "-".join(map(part, token.split("-")))


def words(text):
    """Every camel-case token that begins with a small letter, respelled."""
    return re.sub(EDGE[0] + r"[A-Za-z][A-Za-z0-9_]*(?:-[A-Za-z0-9_]+)*" + EDGE[1], lambda m: snake(m[0]), text)


def main():
    texts = {}
    for path in glob.glob("crates/**/*", recursive=True):
        if re.search(r"\.(antt|rt|edit)$", path) and "/out/" not in path:
            with open(path, encoding="utf-8") as file:
                texts[path] = file.read()
    before = dict(texts)
    for name, files in LEMMAS.items():
        for file in files:
            path = f"crates/{file}.antt"
            texts[path] = whole(name).sub(name + "_lem", texts[path])
    for file, name, fact in FACTS:
        path = f"crates/{file}.antt"
        texts[path] = whole(name).sub(fact, texts[path])
    for path in texts:
        texts[path] = words(texts[path])
        if texts[path] != before[path]:
            with open(path, "w", encoding="utf-8") as file:
                file.write(texts[path])


if __name__ == "__main__":
    main()
