#!/usr/bin/env python3
"""Writes docs/API.md from the sources: every public item that `termwiz_surface`, `termwiz_wire` and
`termwiz_share` name.

    tools/api.py           writes the page
    tools/api.py --check   fails where the page differs from the sources

A type is listed with its variants or public fields and its traits, a call with its signature, what
it requires, its whole documentation and, folded, all that it ensures. Each is a link to its line,
and so is a trait that an `impl` gives, whose ghost members are what it promises. The definitions
that clauses cite are listed at the end. What is hidden from documentation is left out.
"""
import argparse
import re
from pathlib import Path

from sources import TOP, cited, crate, dedent, find, indent_of, resolve, write

PAGE = TOP / "docs" / "API.md"
ROOT = "termwiz_surface"
STREAMS = ("termwiz_wire", "termwiz_share")
ORDER = "surface scrollback view line cellcluster cell change color hyperlink emoji laws".split()
KINDS = ("struct", "enum", "trait")
INTRODUCTION = """# Calls

All that `termwiz_surface`, `termwiz_wire` and `termwiz_share` name, by module: {calls} calls and {types} types. A type is listed with its variants or public fields and its traits; a call with its signature, what its caller must keep (`requires`), its documentation and, folded, what it promises (`ensures`). Each name is a link to its line; a trait without a link is derived, and the `impl` of any other says by its ghost members what it promises. `tools/api.py` makes the page from the sources; what is hidden from documentation, for the crates above, is left out.

How to read a clause:

| Written | Means |
|---|---|
| `self.now`, `other.now` | the value that a reference points to |
| `self.old`, `self.new` | that value before the call, and after it |
| `result` | what the call returns |
| `IfOk result (λ x. p)`, `IfErr` | where the result is `Ok(x)`, the fact `p` |
| `OnOk result p`, `OnErr` | where the result is `Ok`, the fact `p` |
| `p → q`, `p × q`, `p ⊎ q`, `¬ p` | if p then q; both; one of them; not p |
| `p ↔ q` | p exactly where q |
| `(n : ℕ) → p` | p for each number n |
| `a ≡ b`, `≤`, `xs.items`, `length xs` | a equals b; numbers never wrap; the list in a `Vec`; its length |

Words that a clause cites are listed under [Definitions](#definitions), with what each says. Memory is asked for where a call returns `AllocError`, or an error that has `Memory`: it never aborts. `clone` of a type that holds memory returns a `Result` too.
"""


def slug(heading):
    """The anchor that a heading gets."""
    return re.sub(r"[^\w\- ]", "", heading.lower()).replace(" ", "-")


def link(text, item):
    return f"[{text}](../{item.place()})"


def code(lines):
    return ["```rust", *lines, "```"]


def shown(lines):
    """A definition's lines without what isn't public: hidden parts, private fields, attributes."""
    out, part, private, struct = [], [], False, "struct" in lines[0]
    for line in lines[1:-1]:
        part.append(line)
        if indent_of(line) != 4 or line.strip().startswith(("///", "//", "#[")):
            continue
        hidden = any("doc(hidden)" in one for one in part)
        if struct and not line.strip().startswith("pub "):
            private = True
        elif not hidden:
            out += [one for one in part if not one.strip().startswith("// ")]
        part = []
    out += part
    if private:
        out.append("    // private fields")
    return [lines[0], *out, lines[-1]] if out else [lines[0], lines[-1]]


class Page:
    """The page's lines, with what it has counted and seen."""

    def __init__(self):
        self.lines, self.index, self.seen = [], [], set()
        self.calls = self.types = 0
        self.definitions = {}

    def note(self, module, item):
        """Notes the definitions that an item's clauses cite."""
        for clause in item.clauses:
            for word in cited(clause.text()):
                found = resolve(module.names, module.files, word)
                if found and not found.is_lemma:
                    self.definitions[found.name, found.file.path] = found

    def call(self, name, item):
        """A call: its heading, signature, requirements and documentation, and its promises."""
        self.calls += 1
        by = indent_of(item.lines[0])
        head = list(item.lines)
        promises = []
        for clause in item.clauses:
            if clause.word == "requires":
                head += clause.comment + clause.lines
            else:
                promises += clause.comment + clause.lines
        out = ["", f"#### {link(f'`{name}`', item)}", "", *code(dedent(head, by))]
        if item.doc:
            out += ["", *item.doc]
        if promises:
            names = [c.name for c in item.clauses if c.word == "ensures" and c.name]
            named = ": " + ", ".join(f"<code>{n}</code>" for n in names) if names else ""
            out += ["", f"<details><summary>Ensures{named}</summary>", "",
                    *code(dedent(promises, by + 4)), "", "</details>"]
        return out

    def type(self, name, item, methods, traits):
        """A type: its definition, documentation and traits, and its calls."""
        self.types += 1
        out = ["", f"### {item.kind.title()} {link(f'`{name}`', item)}", ""]
        if item.doc:
            out += [*item.doc, ""]
        out += code(shown(item.lines) if item.kind != "trait" and len(item.lines) > 1
                    else item.lines)
        if item.kind == "trait":
            out += ["", "An `impl` defines these ghost members, the laws by their proofs, and the "
                    "calls below. One that documents a default answer may be left out."]
        if traits:
            out += ["", f"Traits: {', '.join(traits)}."]
        if len(methods) > 5:
            links = (f"[`{m.name}`](#{slug(f'{name}::{m.name}')})" for m in methods)
            out += ["", "Calls: " + ", ".join(links) + "."]
        for method in methods:
            out += self.call(f"{name}::{method.name}", method)
        return out

    def module(self, name, at, path):
        """Writes a module, and its public submodules."""
        own = crate(name).modules[at]
        items = [(name, at, item.name, item) for item in own.items.values() if item.public]
        children = [(name, at + (child,), child)
                    for child, public in own.modules.items() if public]
        for alias, used in own.uses.items():
            found = find(name, at, used)
            if not found:
                continue
            other, place, last = found
            target = crate(other).modules[place]
            if last in target.modules or place + (last,) in crate(other).modules:
                children.append((other, place + (last,), alias))
            elif last in target.items:
                items.append((other, place, alias, target.items[last]))
        if not path:
            # The root names types of the modules below, where they are listed.
            for other, place, alias in sorted(children, key=lambda child: place_of(child[2])):
                self.module(other, place, (alias,))
            children = []
        title = "::".join(path) or ROOT
        body, listed = [], []
        for other, place, alias, item in sorted(items, key=lambda i: i[3].kind in KINDS):
            if (other, place, item.name) in self.seen:
                continue
            self.seen.add((other, place, item.name))
            lines = self.item(other, place, alias, item)
            if alias != item.name:
                lines = [re.sub(rf"\b{item.name}\b", alias, line) for line in lines]
            body += lines
            listed.append((alias, item))
        if body:
            heading = f"Module `{title}`"
            doc = [""] + own.doc if own.doc and path else []
            self.lines += ["", f"## {heading}", *doc, *body]
            self.index.append((title, slug(heading), listed))
        for other, place, alias in children:
            self.module(other, place, path + (alias,))

    def item(self, name, place, alias, item):
        module = crate(name).modules[place]
        if item.kind == "fn":
            self.note(module, item)
            return self.call(alias, item)
        if item.kind not in KINDS:
            return ["", f"#### {link(f'`{alias}`', item)}", "", *code(item.lines), "", *item.doc]
        methods = [m for m in crate(name).methods.get(item.name, []) if m.public]
        for method in methods:
            self.note(module_of(name, method), method)
        own = {own.name: own for own in crate(name).traits.get(item.name, [])}
        traits = [f"`{trait}`" for trait in item.traits if trait not in own]
        traits += [link(f"`{trait.removeprefix('fmt::')}`", own[trait])
                   for trait in own if trait != "Model"]
        return self.type(alias, item, methods, traits)

    def contents(self):
        """The table of modules at the head."""
        lines = ["", "| Module | Types | Calls of its own |", "|---|---|---|"]
        for title, anchor, listed in self.index:
            types = [f"[`{alias}`](#{slug(f'{item.kind} {alias}')})"
                     for alias, item in listed if item.kind in KINDS]
            calls = [f"[`{alias}`](#{slug(alias)})"
                     for alias, item in listed if item.kind not in KINDS]
            lines.append(f"| [`{title}`](#{anchor}) | {', '.join(types)} | {', '.join(calls)} |")
        return lines

    def words(self):
        """The table of the definitions that clauses cite."""
        lines = ["", "## Definitions", "",
                 "What the clauses above cite, each a link to its lines in `specs/`. "
                 "[READING.md](READING.md) says in which order to read those of the headline.", "",
                 "| Word | What it says | Crate |", "|---|---|---|"]
        for name, path in sorted(self.definitions, key=lambda key: (key[0].lower(), key)):
            found = self.definitions[name, path]
            says = (found.comment or equation(found)).replace("|", "\\|")
            home = path.relative_to(TOP).parts[1]
            lines.append(f"| [`{name}`](../{found.place()}) | {says} | `{home}` |")
        return lines


def equation(definition):
    """A definition that has no comment: its parts, its equations if they are short, or its type."""
    head, *lines = definition.file.lines[definition.first - 1:definition.last]
    if definition.kind:
        parts = re.findall(r"^ *(?:pub )?(\S+) :", "\n".join(lines), re.M)
        return ", ".join(f"`{part}`" for part in parts)
    left = " " * indent_of(head) + definition.name
    first = next((k for k, line in enumerate(lines) if line.startswith(left)), len(lines))
    head = " ".join([head, *(line.strip() for line in lines[:first])])
    text = " ".join("; " * line.startswith(left) + line.strip() for line in lines[first:])
    text = text.removeprefix("; ").replace(" ; ", "; ")
    if len(text) > 180 or "←" in text:
        text = head.split(" : ", 1)[1]
    return f"`{text}`" if text != "Type 0" else ""


def place_of(module):
    return ORDER.index(module) if module in ORDER else len(ORDER)


def module_of(name, item):
    """The module of a crate that has an item's file."""
    return next(m for m in crate(name).modules.values() if m.path == item.path)


def main():
    parser = argparse.ArgumentParser(description=__doc__,
                                     formatter_class=argparse.RawDescriptionHelpFormatter)
    parser.add_argument("--check", action="store_true", help="compare the page, and write nothing")
    check = parser.parse_args().check
    page = Page()
    page.module(ROOT, (), ())
    for name in STREAMS:
        page.module(name, (), (name,))
    head = INTRODUCTION.format(calls=page.calls, types=page.types)
    text = "\n".join([head.rstrip("\n"), *page.contents(), *page.lines, *page.words(), ""])
    write(PAGE, re.sub(r"\n{3,}", "\n\n", text), check, Path(__file__).name)
    if not check:
        print(f"{page.calls} calls, {page.types} types")


main()
