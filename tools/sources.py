"""Reads what the pages are made of: the items of `src/`, with their documentation and clauses, and
the definitions of `specs/`, with the names that each imports.

It reads the layout that `rt fmt` leaves: an item stands at the left edge, a method four columns
further, a clause four columns further than its function, and a body's brace on a line of its own
where there are clauses.
"""
import re
import sys
from pathlib import Path

TOP = Path(__file__).resolve().parent.parent
CRATES = TOP / "crates"
ITEM = re.compile(r"(pub |pub\(\w+\) )?(?:const |unsafe |extern \"C\" )*"
                  r"(fn|struct|enum|trait|type|const|static) (\w+)")
IMPL = re.compile(r"impl(?:<.*?>)? (?:([\w:]+(?:<.*>)?) for )?(\w+)")
CLAUSE = re.compile(r"(requires|ensures)\*?(?: (\w+))? \{")
WORD = re.compile(r"[^\s(){}\[\],;→λ×⊎=|]+")


class Clause:
    """A clause: `requires` or `ensures`, its name, its lines, and the comment above it."""

    def __init__(self, word, name, comment):
        self.word, self.name, self.comment, self.lines = word, name, comment, []

    def text(self):
        return "\n".join(self.comment + self.lines)


class Item:
    """An item of a module, or a method of a type: where it stands, and what is said of it."""

    def __init__(self, kind, name, path, line, doc, public):
        self.kind, self.name, self.path, self.line, self.doc = kind, name, path, line, doc
        self.public = public
        self.lines, self.clauses, self.traits = [], [], []

    def place(self):
        return f"{self.path.relative_to(TOP)}#L{self.line}"


class Module:
    """A file of `src/`: its items by name, its submodules, and what it passes on."""

    def __init__(self, path):
        self.path, self.items, self.modules, self.uses, self.doc = path, {}, {}, {}, []
        self.methods, self.traits, self.models = {}, {}, {}
        self.names, self.files = imports(path.read_text())


def imports(text):
    """What a file imports: each name with its file and its name there, and short names of files."""
    names, files = {}, {}
    for match in re.finditer(r"^\s*(?:pub |ghost )*use Rattle\.([\w.-]+?)"
                             r"(?:\.\{([^}]*)\}| as (\w+))?;?$", text, re.M):
        path, items, alias = match.groups()
        if items is not None:
            for item in items.split(","):
                words = item.split()
                if words:
                    names[words[-1]] = (path, words[0])
        elif alias:
            files[alias] = path
    return names, files


def indent_of(line):
    return len(line) - len(line.lstrip())


def dedent(lines, by):
    return [line[min(by, indent_of(line)):] for line in lines]


def read_function(lines, start, item):
    """Reads a function's signature and clauses from its first line on."""
    indent, k = indent_of(lines[start]), start
    comment, clause, depth = [], None, 0
    while k < len(lines):
        line, text = lines[k], lines[k].strip()
        if clause is None and not item.clauses and not CLAUSE.match(text) and text != "{":
            if not text.startswith("//"):
                item.lines.append(line)
            if text.endswith("{") or text.endswith("{}") or text.endswith(";"):
                item.lines[-1] = re.sub(r" ?(\{|\{\}|;)$", "", line)
                return
        elif depth == 0 and line.rstrip() in (" " * indent + "{", " " * indent + "{}"):
            return
        elif depth == 0 and text.startswith("//"):
            comment.append(line)
        elif text:
            if depth == 0 and (match := CLAUSE.match(text)):
                clause = Clause(match.group(1), match.group(2) or "", comment)
                item.clauses.append(clause)
                comment = []
            depth += text.count("{") - text.count("}")
            if depth == 0 and text.endswith(";"):
                clause.lines.append(line[:-1])
                return
            clause.lines.append(line)
        k += 1


def read_definition(lines, start, item):
    """Reads the lines of a type, up to its closing brace or semicolon."""
    for line in lines[start:]:
        item.lines.append(line)
        if line.rstrip().endswith(";") and len(item.lines) == 1 or line.startswith("}") \
                or line.endswith("{}"):
            return


def read_ghosts(lines, start, item):
    """Reads a trait's head, and the ghost members that an `impl` of it writes."""
    item.lines = [lines[start]]
    member = False
    for line in lines[start + 1:]:
        if line.startswith("}"):
            item.lines.append(line)
            return
        member = member or bool(re.match(r"    ghost (?!use )", line))
        if member:
            item.lines.append(line)
            member = not line.endswith(";")


def with_type(trait, given):
    """A trait with one of its types given, after those that it has between its brackets."""
    return f"{trait[:-1]}, {given}>" if trait.endswith(">") else f"{trait}<{given}>"


def read_use(use, module):
    """Notes what a `pub use` passes on."""
    match = re.match(r"(.*?)(?:::)?\{(.*)\}$", use)
    names = [n.strip() for n in match.group(2).split(",")] if match else [use.rsplit("::", 1)[-1]]
    path = match.group(1) if match else use.rsplit("::", 1)[0]
    for name in filter(None, names):
        own, _, alias = name.partition(" as ")
        module.uses[alias or own] = [*path.split("::"), own]


def read_module(path):
    """Reads a file of `src/`. What is hidden from documentation is left out."""
    module, lines = Module(path), path.read_text().split("\n")
    doc, hidden, traits, owner, implemented, k = [], False, [], None, None, 0
    while k < len(lines):
        line, text = lines[k], lines[k].strip()
        indent = indent_of(line)
        if text.startswith("///"):
            doc.append(text[3:].removeprefix(" "))
            k += 1
            continue
        if text.startswith("#["):
            attribute = text
            while attribute.count("[") > attribute.count("]"):
                k += 1
                attribute += " " + lines[k].strip()
            hidden = hidden or "doc(hidden)" in attribute
            if attribute.startswith("#[derive("):
                traits += re.findall(r"\w+", attribute[len("#[derive("):])
            k += 1
            continue
        if text.startswith("//!"):
            module.doc.append(text[3:].removeprefix(" "))
        elif indent == 0 and text.startswith("impl"):
            match = IMPL.match(text)
            owner = implemented = None
            if match and match.group(1):
                implemented = Item("impl", match.group(1), path, k + 1, doc, True)
                module.traits.setdefault(match.group(2), []).append(implemented)
                if match.group(1) == "Model":
                    module.models[match.group(2)] = k + 1
            elif match:
                owner = match.group(2)
        elif text.startswith("}") and indent == 0:
            owner = implemented = None
        elif implemented and (match := re.match(r"type (\w+ = .*);", text)):
            implemented.name = with_type(implemented.name, match.group(1))
        elif indent == 0 and (match := re.match(r"(pub )?mod (\w+);", text)):
            module.modules[match.group(2)] = bool(match.group(1)) and not hidden
        elif indent == 0 and text.startswith("pub use "):
            use = text
            while not use.endswith(";"):
                k += 1
                use += " " + lines[k].strip()
            if not hidden:
                read_use(use[len("pub use "):-1], module)
        elif (match := ITEM.match(text)) and indent == (4 if owner else 0) and not hidden:
            of_trait = owner in module.items and module.items[owner].kind == "trait"
            item = Item(match.group(2), match.group(3), path, k + 1, doc,
                        match.group(1) == "pub " or of_trait)
            if item.kind == "fn":
                read_function(lines, k, item)
            elif item.kind == "trait":
                read_ghosts(lines, k, item)
                owner = item.name
            else:
                read_definition(lines, k, item)
            item.traits = traits
            if indent and owner != item.name:
                module.methods.setdefault(owner, []).append(item)
            else:
                module.items[item.name] = item
        if text:
            doc, hidden, traits = [], False, []
        k += 1
    return module


class Crate:
    """A crate's modules by their paths, and the methods, traits and models of its types."""

    def __init__(self, name):
        self.name, self.modules = name, {}
        self.methods, self.traits, self.models = {}, {}, {}
        root = CRATES / name / "src"
        self.read(root / ("lib.rt" if (root / "lib.rt").exists() else "main.rt"), ())

    def read(self, path, at):
        module = self.modules[at] = read_module(path)
        for name, methods in module.methods.items():
            self.methods.setdefault(name, []).extend(methods)
        for name, traits in module.traits.items():
            self.traits.setdefault(name, []).extend(traits)
        for name, line in module.models.items():
            self.models[name] = (path, line)
        for child in module.modules:
            folder = path.parent if path.name in ("lib.rt", "main.rt") else path.with_suffix("")
            self.read(folder / f"{child}.rt", at + (child,))


READ = {}


def crate(name):
    if name not in READ:
        READ[name] = Crate(name)
    return READ[name]


def chain():
    """The crates of the repository, lowest first."""
    lines = (TOP / "crates.txt").read_text().split("\n")
    return [line.split(":")[0].split()[0] for line in lines if line and not line.startswith("#")]


def find(own, at, path):
    """The crate, the module's path and the name of what a `use` names, or none."""
    if path[0] == "crate":
        start, path = (own, ()), path[1:]
    elif path[0] == "super":
        start, path = (own, at[:-1]), path[1:]
    elif path[0] == "self":
        start, path = (own, at), path[1:]
    elif path[0] in crate(own).modules[at].modules:
        start = (own, at)
    elif (CRATES / path[0]).is_dir():
        start, path = (path[0], ()), path[1:]
    else:
        return None
    name, place = start
    for step in path[:-1]:
        module = crate(name).modules[place]
        if step in module.modules:
            place += (step,)
        elif step in module.uses:
            found = find(name, place, module.uses[step])
            name, place = found[0], found[1] + (found[2],)
    module, last = crate(name).modules[place], path[-1]
    if last not in module.items and last not in module.modules and last in module.uses:
        return find(name, place, module.uses[last])
    return name, place, last


class Definition:
    """A definition of `specs/`: its first and last line, counted from 1, and its comment."""

    def __init__(self, file, name, first, comment, is_lemma, kind):
        self.file, self.name, self.first, self.last = file, name, first, first
        self.comment, self.is_lemma, self.kind = comment, is_lemma, kind

    def place(self):
        return f"{self.file.path.relative_to(TOP)}#L{self.first}-L{self.last}"

    def size(self):
        return self.last - self.first + 1

    def words(self):
        """The names that it may cite: those that it binds itself are left out."""
        lines = self.file.lines[self.first - 1:self.last]
        return cited("\n".join(lines), self.name)


def cited(text, own=None):
    """The words of clauses or of a definition, without those that are bound there."""
    text = re.sub(r"(?m)--.*$|//.*$", "", text)
    text = re.sub(r"(?m)^\s*(requires|ensures)\*?( \w+)? \{", "", text)
    bound = set()
    for match in re.finditer(r"λ ([^.]*)\. ", text):
        bound.update(match.group(1).split())
    for match in re.finditer(r"[({]([\w ]+?) : ", text):
        bound.update(match.group(1).split())
    if own:
        for match in re.finditer(rf"^\s*{re.escape(own)} (.*?) = ", text, re.M):
            bound.update(word for word in WORD.findall(match.group(1)) if not word[0].isupper())
    text = re.sub(r"(?m)^(\s*)(?:pub )?([\w-]+) : ", r"\1 ", text)  # fields and headers
    text = re.sub(r"([{;]\s*)(\w+) = ", r"\1", text)  # fields of a record that is made
    text = re.sub(r"\blet (\w+) =", lambda m: bound.add(m.group(1)) or "", text)
    words = WORD.findall(text.replace(" : ", " "))
    return [word for word in words if word.split(".")[0] not in bound]


HEADER = re.compile(r"((?:abbrev |unfoldable |pub |mutual )*)((?:record |data )?)(\S+)(.*)")


class Specs:
    """A file of `specs/`: its definitions by name, and what it imports and passes on."""

    def __init__(self, path):
        self.path, text = path, path.read_text()
        self.lines = text.split("\n")
        self.names, self.files = imports(text)
        self.passed, self.modules = {}, {}
        for match in re.finditer(r"^pub use Rattle\.([\w.]+)(?:\.\{([^}]*)\})?$", text, re.M):
            if match.group(2) is None:
                self.modules[match.group(1).rsplit(".", 1)[-1]] = match.group(1)
                continue
            for item in match.group(2).split(","):
                words = item.split()
                self.passed[words[-1]] = (match.group(1), words[0])
        self.definitions, self.parts = {}, {}
        self.read()

    def read(self):
        bases, current, comment = [0], None, []
        for k, line in enumerate(self.lines):
            text, indent = line.strip(), indent_of(line)
            if not text:
                comment = []
                continue
            if re.match(r"(pub )?(use|mod|open) ", text):
                comment, current = [], None
                continue
            if text.startswith("--"):
                comment.append(text[2:].strip())
                continue
            while indent < bases[-1]:
                bases.pop()
            if text.startswith("module "):
                bases.append(indent + 2)
                comment, current = [], None
                continue
            match = HEADER.match(text)
            if indent == bases[-1] and (match.group(1) or match.group(2) or
                                        re.match(r"\S+ :", text)) and not (
                    current and match.group(3) == current.name):
                words = match.group(1) + match.group(2)
                current = Definition(self, match.group(3), k + 1, " ".join(comment),
                                     not re.search("abbrev|unfoldable|record|data", words),
                                     match.group(2).strip())
                self.definitions[current.name] = current
            elif current and current.kind and (part := re.match(r"(?:pub )?(\S+) :", text)):
                self.parts[part.group(1)] = current.name
            if current:
                current.last = k + 1
            comment = []


FILES = {}


def specs(path):
    """The file of `specs/` that an import names: a crate's list where it names no file. Or none."""
    words = path.split(".")
    if len(words) < 2 or words[1] != "specs" or words[2:3] == ["declared"]:
        return None
    folder = CRATES / words[0] / "specs"
    file = folder / ("/".join(words[2:] or ["Lib"]) + ".antt")
    if not file.is_file():
        listed = words[2:] and specs(f"{words[0]}.specs")
        return specs(listed.modules[words[2]]) if listed and words[2] in listed.modules else None
    if file not in FILES:
        FILES[file] = Specs(file)
    return FILES[file]


def settle(file, name):
    """The definition of a name in a file: that of its type, where it is a part of one."""
    if name in file.definitions:
        return file.definitions[name]
    if name in file.passed:
        path, own = file.passed[name]
        found = specs(path)
        return settle(found, own) if found else None
    return file.definitions[file.parts[name]] if name in file.parts else None


def resolve(names, files, word):
    """The definition that a word means by these imports, or none."""
    front, _, rest = word.partition(".")
    for name, path in ((word, names.get(word)), (front, names.get(front))):
        if path:
            found = specs(path[0])
            return settle(found, path[1]) if found else None
    if rest and front in files:
        found = specs(files[front])
        return settle(found, rest.split(".")[0]) if found else None
    return None


def cites(definition):
    """The definitions that a definition cites."""
    file, found = definition.file, []
    for word in definition.words():
        front = word.split(".")[0]
        other = file.definitions.get(front) or (
            file.definitions[file.parts[front]] if front in file.parts and front[0].isupper()
            else resolve(file.names, file.files, word))
        if other and other is not definition and other not in found:
            found.append(other)
    return found


def write(path, text, check, script):
    """Writes a page, or fails where it differs from what the sources say."""
    if not check:
        path.write_text(text)
    elif not path.exists() or path.read_text() != text:
        sys.exit(f"{path.relative_to(TOP)} differs from the sources: run tools/{script}")
