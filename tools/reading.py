#!/usr/bin/env python3
"""Writes the lists of docs/READING.md: the definitions that one reads to believe the headline.

    tools/reading.py           writes the lists, and leaves the words around them
    tools/reading.py --check   fails where the page differs from the sources

NOTIONS are the lists of each part of the page, and THEOREMS the clauses of the headline of
docs/THEOREMS.md: a new theorem there gets a line here, and a block `<!--NAME-->` to
`<!--end-->` in the page. From each the names are followed to their definitions, through all of
`specs/`. Names of the toolchain's own library and types of the code end the way. A definition is
in the list where it is first read. A list and a theorem name the last lists that they read whole; a
theorem adds all else that it reads.

It fails too where docs/THEOREMS.md names a clause that its calls don't have, and where its headline
names one that no list here is made from.
"""
import argparse
import re
import sys
from pathlib import Path

from sources import TOP, chain, cited, cites, crate, resolve, specs, write

PAGE = TOP / "docs" / "READING.md"
CLAIMS = TOP / "docs" / "THEOREMS.md"
NOTIONS = {
    "row": [("row", ["Row.row_of"])],
    "step": [
        ("step", ["Step.step"]),
        ("equality", ["CellValue.cell_eq"]),
        ("full step", ["FullScreen.full_step"]),
    ],
    "due": [
        ("log", ["Log.LogValue"]),
        ("due", ["Log.due", "Log.next_number"]),
        ("known", ["Log.is_known", "Log.delta_limit"]),
    ],
    "follows": [
        ("surface", ["Surface.screen_of"]),
        ("full surface", ["Surface.full_of"]),
        ("pictures", ["Picture.full_screens", "Picture.played"]),
        ("screens", ["Picture.screens"]),
        ("measure", ["Measure.measure"]),
        ("leads", ["Following.LeadsTo", "Following.ViewerValue"]),
        ("follows", ["Following.Follows"]),
    ],
    "need": [("need", ["Diff.need"])],
    "further": [
        ("replay", ["Step.replay"]),
        ("regions", ["Step.regions_fit"]),
        ("printed", ["Prints.printed"]),
        ("changes", ["ChangeValue.change_value"]),
        ("repaint", ["Asking.own_repaint"]),
        ("bound", ["Asking.knows", "Asking.most_own_entries"]),
        ("stream", ["Stream.IsStream", "Stream.IsFullStream"]),
        ("answer", ["Answer.AnswerValue"]),
        ("given", ["Carried.IsGivenBy"]),
        ("carried", ["Answer.Carries"]),
        ("blank", ["Surface.blank_surface"]),
        ("act", ["Schedule.Acts"]),
        ("shown", ["ScreenValue.screen_value"]),
        ("pieces", ["Pieces.runs", "Pieces.needs_pieces"]),
        ("bytes", ["Sent.answer"]),
        ("forms", ["Sent.IsSent"]),
        ("decoding", ["Answers.answer_at"]),
        ("client", ["Client.shown_by", "Client.fits"]),
        ("taken", ["Client.shown_after", "Client.has_other_size"]),
        ("source", ["Source.SourceValue", "Serving.Serves"]),
    ],
}
THEOREMS = [
    ("viewer", [("Viewer::follow", "caught_up fully_caught_up")]),
    ("goes-on", [("Viewer::new", "follows"), ("Viewer::follow", "follows"),
                 ("Surface::add_changes", "preserves")]),
    ("repaints", [("Surface::get_changes", "repaint full")]),
    ("diff", [("Surface::diff_screens", "rows prints")]),
    ("accept", [("Surface::answer", "given given_fully carries carries_fully"),
                ("Viewer::accept", "shows shows_fully names names_fully"),
                ("Viewer::accept_owned", "shows shows_fully names names_fully")]),
    ("run", [("view::run", ""), ("view::run_full", ""), ("many::run_many", "")]),
    ("shows", [("Client::feed", "follows")]),
    ("takes", [("Client::feed", "feeds")]),
    ("served", [("Source::respond", "ok preserves"), ("Client::feed", "shows serves"),
                ("Client::reset", "ready serves")]),
    ("more", [("termwiz_wire::answers", ""), ("termwiz_wire::decided", "answer"),
              ("termwiz_wire::stays", "answer")]),
    ("watcher", [("pipe::piped", "")]),
]


def functions():
    """Each function with a contract, by its type's, its file's or its crate's name and its own."""
    found = {}
    for name in chain():
        own = crate(name)
        for owner, methods in own.methods.items():
            for item in methods:
                found.setdefault(f"{owner}::{item.name}", []).append((own, item))
        for module in own.modules.values():
            for item in module.items.values():
                if item.kind == "fn":
                    for home in {module.path.stem, name}:
                        found.setdefault(f"{home}::{item.name}", []).append((own, item))
    return found


def lacking(known):
    """The clauses that a row of CLAIMS names behind calls, or types, that don't have them."""
    clauses = {}
    for call, found in known.items():
        owner, name = call.split("::")
        names = {name}.union(*({clause.name for clause in item.clauses} for _, item in found))
        for key in (call, owner, name):
            clauses.setdefault(key, set()).update(names)
    wrong = []
    for line in CLAIMS.read_text().split("\n"):
        for calls, names in re.findall(r"([^()|]*)\(([^()]*)\)", line.rstrip("|").split("|")[-1]):
            keys = re.findall(r"`(?:\w+::)*?((?:\w+::)?\w+)`", calls)
            having = set().union(*(clauses.get(key, set()) for key in keys))
            wrong += [name for name in re.findall(r"`(\w+)`", names) if keys and name not in having]
    return wrong


def unread():
    """The calls of the headline of CLAIMS with a clause from which no list is made."""
    headline = CLAIMS.read_text().split("## The headline")[1].split("\n## ")[0]
    made = [(call, set(names.split())) for _, calls in THEOREMS for call, names in calls]
    missing = []
    for line in headline.split("\n"):
        for part in line.rstrip("|").split("|")[-1].split("; "):
            named = re.findall(r"([^()]*)\(([^()]*)\)", part)
            if re.fullmatch(r"(`[\w:]+`(, )?)+", part):
                named = [(part, "")]
            for calls, names in named:
                wanted = set(re.findall(r"`(\w+)`", names))
                missing += [call for call in re.findall(r"`([\w:]+)`", calls)
                            if not any(f"::{own}".endswith(f"::{call}") and
                                       (wanted <= got or not got) for own, got in made)]
    return missing


def definition(path):
    """The definition of a name in a file, by `FILE.NAME`."""
    stem, name = path.split(".")
    files = [specs(f"{own}.specs.{stem}") for own in chain()]
    found = [file.definitions[name] for file in files
             if file and file.path.stem == stem and name in file.definitions]
    if len({item.file.path for item in found}) != 1:
        sys.exit(f"tools/reading.py: {path} names {len(found)} definitions")
    return found[0]


def reached(starts):
    """The definitions that these reach."""
    todo, seen = list(starts), set()
    while todo:
        item = todo.pop()
        if item not in seen and not item.is_lemma:
            seen.add(item)
            todo += cites(item)
    return seen


def roots(calls, known):
    """What the named clauses of calls cite, and the calls as they stand in the page."""
    starts, shown = [], []
    for call, names in calls:
        if call not in known:
            sys.exit(f"tools/reading.py: there is no call {call}")
        own, item = known[call][0]
        wanted = names.split()
        clauses = [clause for clause in item.clauses if clause.word == "ensures"
                   and (not wanted or clause.name in wanted)]
        if not clauses or set(wanted) - {clause.name for clause in clauses}:
            sys.exit(f"tools/reading.py: {call} lacks a clause of {names}")
        module = next(m for m in own.modules.values() if m.path == item.path)
        for clause in clauses:
            for word in cited(clause.text()):
                found = resolve(module.names, module.files, word)
                starts += [found] if found else []
        listed = f" ({', '.join(f'`{name}`' for name in wanted)})" if wanted else ""
        shown.append(f"[`{call}`](../{item.place()}){listed}")
    return starts, shown


def order():
    """The files of `specs/` by their crates, each behind those that it imports."""
    files, todo = [], []
    for name in chain():
        todo += sorted((TOP / "crates" / name / "specs").rglob("*.antt"))

    def visit(path):
        own = path.relative_to(TOP / "crates")
        folder = ".".join(own.parts[2:]).removesuffix(".antt")
        file = specs(f"{own.parts[0]}.specs" + ("" if folder == "Lib" else f".{folder}"))
        if file in files or file is None:
            return
        paths = [path for path, _ in file.names.values()] + list(file.files.values())
        for other in map(specs, paths):
            if other and other is not file and other.path.name != "Lib.antt":
                visit(other.path)
        files.append(file)

    for path in todo:
        visit(path)
    return files


def table(items, files):
    """Definitions crate by crate, each a link to its lines, in the order in which to read them."""
    crates = {}
    for file in files:
        own = [item for item in file.definitions.values() if item in items]
        if own:
            links = ", ".join(f"[`{item.name}`](../{item.place()})" for item in own)
            crates.setdefault(file.path.relative_to(TOP / "crates").parts[0], []).append(links)
    return [f"- `{name}`: {'; '.join(links)}" for name, links in crates.items()]


def anchor(name):
    return f"list-{name.replace(' ', '-')}"


def amount(items):
    return f"{len(items)} definitions, {sum(item.size() for item in items)} lines"


class Lists:
    """The lists of the page: what each has, and which others it comes after."""

    def __init__(self):
        self.own, self.before = {}, {}

    def add(self, name, whole):
        """Lists what no list has; returns it."""
        self.own[name] = whole - set().union(*self.own.values())
        self.before[name] = self.within(whole) - {name}
        return self.own[name]

    def within(self, whole):
        """The lists that are read whole."""
        return {name for name, items in self.own.items() if items and items <= whole}

    def links(self, names):
        """Links to the last ones of these lists, which come after all others."""
        last = [name for name in self.own
                if name in names and not any(name in self.before[other] for other in names)]
        return ", ".join(f"[{name}](#{anchor(name)})" for name in last)


def blocks(known):
    """Each block of the page, by its name."""
    files, lists, made = order(), Lists(), {}
    for block, notions in NOTIONS.items():
        lines = []
        for name, paths in notions:
            own = lists.add(name, reached(map(definition, paths)))
            after = lists.links(lists.before[name])
            lines += ["", f'<a id="{anchor(name)}"></a>**{name}**'
                      f'{", after " if after else ""}{after}:', "", *table(own, files)]
        made[block] = lines[1:]
    for name, calls in THEOREMS:
        starts, shown = roots(calls, known)
        whole = reached(starts)
        read = lists.within(whole)
        own = whole - set().union(*(lists.own[other] for other in read))
        made[name] = [f'{", ".join(shown)}: {amount(whole)}, of {lists.links(read)}'
                      f'{", and:" if own else "."}', *([""] if own else []), *table(own, files)]
    return made


def main():
    parser = argparse.ArgumentParser(description=__doc__,
                                     formatter_class=argparse.RawDescriptionHelpFormatter)
    parser.add_argument("--check", action="store_true", help="compare the page, and write nothing")
    check = parser.parse_args().check
    known, text = functions(), PAGE.read_text()
    if wrong := lacking(known):
        sys.exit(f"docs/THEOREMS.md names clauses that aren't there: {', '.join(wrong)}")
    if wrong := unread():
        sys.exit(f"tools/reading.py makes no list of the headline's {', '.join(wrong)}")
    for name, lines in blocks(known).items():
        block = "\n".join([f"<!--{name}-->", "", *lines, "", "<!--end-->"])
        text, count = re.subn(rf"<!--{name}-->.*?<!--end-->", lambda _: block, text, flags=re.S)
        if count != 1:
            sys.exit(f"docs/READING.md has {count} blocks for {name}")
    write(PAGE, text, check, Path(__file__).name)


main()
