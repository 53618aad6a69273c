#!/usr/bin/env python3
"""Compares the kinds of changes, and of attributes, in the places that number them.

    tools/kinds.py

The definition of the encoding (`crates/termwiz_wire/specs/Encoding.antt`), the schema
(`docs/stream.cddl`), the page (`docs/VIEWER.md`) and the viewer in JavaScript
(`bindings/js/answer.mjs`) each list them: all have to have the same numbers, and each number the
same items. It prints where one differs from the definition, and fails then.
"""
import re
import sys

from sources import TOP

# What each place calls an item, and what that is.
ITEMS = {
    "color": "color", "colour": "color", "readColor": "color",
    "text": "text", "tstr": "text", "with_pieces": "text", "readText": "text",
    "position": "position", "x": "position", "y": "position", "readPosition": "position",
    "boolean": "bool", "bool": "bool", "visible": "bool", "readBool": "bool",
    "attribute_change": "attribute", "attribute-change": "attribute", "which": "attribute",
    "readAttribute": "attribute",
    "attributes": "pen", "style": "pen", "readPen": "pen",
    "optional_link": "link", "link": "link",
    "first": "number", "size": "number", "count": "number", "uint": "number",
    "unsigned": "small", "upTo": "small", "shape": "small", "n": "small",
}
ATTRIBUTES = {"Intensity": "intensity", "Underline": "underline", "Italic": "italic",
              "Blink": "blink", "Reverse": "reverse", "StrikeThrough": "strike",
              "Invisible": "invisible", "Foreground": "foreground", "Background": "background",
              "Hyperlink": "link"}


def read(path):
    return (TOP / path).read_text()


def between(text, first, last):
    """The part of a text behind one mark and before the next of another."""
    return text.split(first, 1)[1].split(last, 1)[0]


def in_definition(kind, values):
    """By its number, a kind's name and its items."""
    text = read("crates/termwiz_wire/specs/Encoding.antt")
    names = re.findall(rf"^{kind} \(\w+\.(\w+)[\w ]*\) = (\d+)$", text, re.M)
    rows = re.findall(rf"^{values} (?:measure )?\(\w+\.(\w+)[\w ]*\) = (.*)$", text, re.M)
    items = {name: items_of(row.replace("scroll", "first ++ size ++ count").split(" ++ "))
             for name, row in rows}
    return {int(number): (name, items[name]) for name, number in names}


def items_of(words):
    """What each item is that begins with such a word."""
    return [ITEMS[re.match(r"[\w-]+", word.strip())[0]] for word in words]


def in_schema(rule):
    """By its number, the items of each alternative of a rule, without a text's pieces."""
    rows = re.findall(r"\[(\d+), ([^\]]*)\]", re.sub(r";.*", "", between(
        read("docs/stream.cddl"), f"\n{rule} =\n", "\n\n")))
    found = {}
    for number, row in rows:
        words = [word.split(": ")[-1].split(" / ")[0] for word in row.split(", ")]
        words = ["unsigned" if ".." in word else word for word in words if word != "pieces"]
        found[int(number)] = items_of(words)
    return found


def in_page():
    """By its number, the items of each change in the page's table."""
    rows = re.findall(r"`\[(\d+), (.*?)\]+`", between(
        read("docs/VIEWER.md"), "\n## Changes\n", "\n**Clears**"))
    found = {}
    for number, row in rows:
        words = [row[1:].split(",")[0]] if row.startswith("[") else row.split(", ")
        found[int(number)] = items_of(word for word in words if word != "pieces")
    return found


def in_viewer():
    """By its number, the items that the viewer reads of each change."""
    rows = between(read("bindings/js/answer.mjs"), "\nconst CHANGES = [\n", "\n];").split("\n")
    found = {}
    for number, row in enumerate(rows):
        form = re.match(r" *\[(?:\[(.*?)\]|(REGION)), ", row)
        words = "first, size, count" if form[2] else form[1]
        found[number] = items_of(word for word in words.split(", ") if word != "readRuns")
    return found


def viewer_attributes():
    names = between(read("bindings/js/answer.mjs"), "\nconst NAMES = [", "];")
    return dict(enumerate(re.findall(r"'(\w+)'", names)))


def page_attributes():
    """By its number, each attribute that the page names behind it."""
    words = between(read("docs/VIEWER.md"), "\n`which` is ", "\n")
    found = {int(number): name for number, name in re.findall(r"(\d+) (\w+)", words)}
    found[int(re.search(r"or (\d+), with a link", words)[1])] = "link"
    return {number: name.removesuffix("through") for number, name in found.items()}


def compare(where, found, wanted):
    """How many kinds differ, each of which is printed."""
    wrong = 0
    for number in sorted(found.keys() | wanted.keys()):
        if found.get(number) != wanted.get(number):
            wrong += 1
            print(f"FAILED: kind {number} is {found.get(number)} in {where}, and "
                  f"{wanted.get(number)} in the definition")
    return wrong


def main():
    changes = in_definition("change_kind", "change_values")
    attributes = in_definition("attribute_kind", "attribute_value")
    items = {number: row for number, (_, row) in changes.items()}
    values = {number: row for number, (_, row) in attributes.items()}
    names = {number: ATTRIBUTES[name] for number, (name, _) in attributes.items()}
    wrong = compare("docs/stream.cddl", in_schema("change"), items)
    wrong += compare("docs/VIEWER.md", in_page(), items)
    wrong += compare("bindings/js/answer.mjs", in_viewer(), items)
    wrong += compare("docs/stream.cddl", in_schema("attribute-change"), values)
    wrong += compare("docs/VIEWER.md", page_attributes(), names)
    wrong += compare("bindings/js/answer.mjs", viewer_attributes(), names)
    print(f"{len(items)} kinds of changes and {len(names)} of attributes, {wrong} differ")
    sys.exit(wrong > 0)


main()
