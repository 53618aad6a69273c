#!/usr/bin/env python3
"""Writes the declarations of `bindings/c/tikeburo.h` and `bindings/rust/src/ffi.rs` from what
`crates/tikeburo_c` exports, and the version of the header and of `tk_version_number` from
`bindings/rust/Cargo.toml`.

    tools/abi.py           writes them
    tools/abi.py --check   fails where one differs from the exports

The words of the header are its own, and so are the names of parameters, the order, and whether
bytes are `char` or `uint8_t`; types, fields and numbers are those of the exports. A new export is
declared at the header's end, with its documentation: put it where it belongs, and write its words.
`tk_strerror` has to have a text for each status, which is written by hand.
An export that takes two handles has a name that ends in `_distinct`, and an inline function of the
header, which is written by hand, has the name without that: it tests that they are two.
`ffi.rs` has the functions, statuses and kinds of changes that the crate around it names.
"""
import argparse
import re
import sys
from pathlib import Path

from sources import TOP, crate, write

HEADER = TOP / "bindings" / "c" / "tikeburo.h"
MANIFEST = TOP / "bindings" / "rust" / "Cargo.toml"
RUST = TOP / "bindings" / "rust" / "src"
FFI = RUST / "ffi.rs"
VERSION = TOP / "crates" / "tikeburo_c" / "src" / "version.rt"
STRUCTS = {"Handle": "tk_handle", "ColorFields": "tk_color", "AttributeFields": "tk_attributes",
           "CellFields": "tk_cell", "ChangeFields": "tk_change", "FaultFields": "tk_fault",
           "TakenFields": "tk_taken", "StateFields": "tk_settings", "RowCellFields": "tk_row_cell",
           "RowCounts": "tk_row_counts", "ListCounts": "tk_list_counts", "HeadFields": "tk_head",
           "WidthRange": "tk_width_range"}
PLAIN = {"usize": "size_t", "isize": "ptrdiff_t", "u8": "uint8_t", "u32": "uint32_t",
         "i32": "tk_status", "bool": "bool"}
IN_RUST = {"size_t": "usize", "ptrdiff_t": "isize", "uint8_t": "u8", "uint32_t": "u32",
           "char": "u8", "void": "c_void", "tk_status": "i32", "bool": "bool"}
# The prefixes of the header for enums that have numbers, and the names that differ.
ENUMS = {"Failure": "", "Intensity": "INTENSITY_", "Underline": "UNDERLINE_", "Blink": "BLINK_",
         "SemanticType": "SEMANTIC_", "VerticalAlign": "ALIGN_", "CursorShape": "CURSOR_",
         "LineAttribute": "LINE_", "Choice": "WIDTHS_", "ColorAttribute": "COLOR_",
         "Kind": "CHANGE_"}
NAMES = {"PaletteIndex": "PALETTE", "TrueColorWithDefaultFallback": "TRUE",
         "TrueColorWithPaletteFallback": "TRUE_OR_PALETTE"}
DECLARATION = re.compile(r"^(tk_status|void|size_t) (tk_\w+)\(([^;{]*)\);", re.M)


def items(kind):
    """The public items of a kind, in the order of their files."""
    for module in crate("tikeburo_c").modules.values():
        for item in module.items.values():
            if item.kind == kind:
                yield item


def pointer(rust):
    """The type of C for a reference, as what is pointed to and whether it is only read."""
    match = re.fullmatch(r"&(?:'static )?(mut )?\[?(\w+)\]?", rust)
    if not match:
        sys.exit(f"tools/abi.py: there is no type of C for {rust}")
    to = STRUCTS.get(match.group(2)) or PLAIN[match.group(2)]
    return ("" if match.group(1) else "const ") + to + " *"


def parameters(item):
    """An export's parameters, as types and names of C, and its type. No allocator is passed."""
    text = " ".join(line.strip() for line in item.lines)
    match = re.fullmatch(r'pub extern "C" fn \w+\((.*?),? ?\)(?: -> (\w+))?', text)
    inside, result = match.groups()
    found = []
    for parameter in re.split(r", (?=\w+: )", inside):
        name, _, rust = parameter.strip().partition(": ")
        if rust in ("", "Global"):
            continue
        if rust in PLAIN:
            found.append((PLAIN[rust], name))
        else:
            found.append((pointer(rust), name))
            if "[" in rust:
                found.append(("size_t", "room" if "mut" in rust else "len"))
    return found, PLAIN[result] if result else "void"


def split(parameter):
    """A parameter of the header, as its type and its name."""
    match = re.fullmatch(r"(.*?)(\w+)", parameter.strip())
    kind, name = match.groups()
    return kind if kind.endswith("*") else kind.strip(), name


def fitted(found, was):
    """An export's parameters with the names, and the `char`s, that the header has for them."""
    out = []
    for k, (kind, name) in enumerate(found):
        if len(found) == len(was):
            own, name = was[k]
            if own.replace("char", "uint8_t") == kind:
                kind = own
        out.append((kind, name))
    return out


def in_c(kind, name):
    return kind + name if kind.endswith("*") else f"{kind} {name}"


def declared(result, name, found):
    """A declaration, laid out in 100 columns."""
    if not found:
        return f"{result} {name}(void);"
    line, lines = f"{result} {name}(", []
    indent = " " * len(line)
    for k, parameter in enumerate(found):
        word = in_c(*parameter) + ("," if k + 1 < len(found) else ");")
        if len(line) + len(word) + 1 > 100:
            lines.append(line.rstrip())
            line = indent
        line += word + " "
    return "\n".join([*lines, line.rstrip()])


def comment(item):
    lines, line = [], "/*"
    for word in " ".join(item.doc).split():
        if len(line) + len(word) > 96:
            lines.append(line)
            line = " *"
        line += " " + word
    return "\n".join([*lines, line + " */"])


def functions(header, exports):
    """The header with each function's declaration made anew, and their parameters by name."""
    made = {}

    def one(match):
        name = match.group(2)
        if name not in exports:
            sys.exit(f"tools/abi.py: tikeburo.h declares {name}, which is not exported")
        found, result = parameters(exports[name])
        was = [split(parameter) for parameter in match.group(3).split(",")]
        made[name] = (result, fitted(found, was))
        return declared(result, name, made[name][1])

    header = DECLARATION.sub(one, header)
    for name, item in exports.items():
        if name not in made:
            found, result = parameters(item)
            made[name] = (result, found)
            new = f"{comment(item)}\n{declared(result, name, found)}\n\n"
            header = header.replace("#ifdef __cplusplus\n}", new + "#ifdef __cplusplus\n}")
    return header, made


def fields(item):
    """The fields of a struct, as types and names of C."""
    for line in item.lines[1:-1]:
        match = re.fullmatch(r"\s*(?:pub )?(\w+): (\w+),", line)
        if match:
            name, rust = match.groups()
            yield ("void *", "at") if rust == "Loose" else (STRUCTS.get(rust) or PLAIN[rust], name)


def structs(text, form, body):
    """A file with the fields of each struct made anew."""
    for item in items("struct"):
        name = STRUCTS.get(item.name)
        if not name:
            continue
        pattern = form.format(name=name)
        text, count = re.subn(pattern, lambda match: match.group(1) + body(
            list(fields(item)), match.group(2)) + match.group(3), text, flags=re.S)
        if count != 1:
            sys.exit(f"tools/abi.py: there are {count} structs {name} for {item.name}")
    return text


def c_fields(found, was):
    """The fields of a struct of C, each with the comment that it had."""
    notes = dict(re.findall(r"(\w+);( */\*.*?\*/)", was))
    return "".join(f"    {in_c(*field)};{notes.get(field[1], '')}\n" for field in found)


def numbers():
    """The numbers of enums, by the names of the header."""
    found = {"DONE": 0}
    for module in (*crate("termwiz_cell").modules.values(), *crate("tikeburo_c").modules.values()):
        text = module.path.read_text()
        arms = re.findall(r"(\d+) => (?:Some|Ok)\((\w+)::(\w+)", text) + [
            (number, "Failure", name)
            for name, number in re.findall(r"Err\(Failure::(\w+)\) => (\d+),", text)] + [
            (number, "Choice", name)
            for name, number in re.findall(r"Choice::(\w+)(?:\(_\))? => (\d+),", text)]
        for number, enum, variant in arms:
            if enum in ENUMS:
                variant = NAMES.get(variant) or re.sub(r"(?<=[a-z])(?=[A-Z])", "_", variant)
                if enum == "LineAttribute":
                    variant = variant.removesuffix("_Line")
                found[ENUMS[enum] + variant.upper()] = int(number)
        # A client stops at each of these but the first, and at a size.
        for variant, number in re.findall(r"FaultKind::(\w+) => (\d+),", text) + [
                ("Size", number) for number in re.findall(
                    r"ClientError::Size \{ at \} => \{\s*\*fault = fields_at\((\d+),", text)]:
            if variant != "Truncated":
                found["FAULT_" + variant.upper()] = int(number)
        for variant, number in re.findall(r"(None|Taken::\w+).* => TakenFields \{ kind: (\d+),",
                                          text.replace("Some(", "")):
            found["TAKEN_" + variant.removeprefix("Taken::").upper()] = int(number)
    return found


def numbered(header, known):
    """The header with the numbers of its enums made anew."""
    seen = set()

    def one(match):
        if match.group(1) not in known:
            sys.exit(f"tools/abi.py: tikeburo.h has TK_{match.group(1)}, which no enum has")
        seen.add(match.group(1))
        return f"TK_{match.group(1)} = {known[match.group(1)]}"

    header = re.sub(r"TK_(\w+) = (\d+)", one, header)
    for name in known:
        if name not in seen:
            sys.exit(f"tools/abi.py: tikeburo.h has no TK_{name}")
    return header


def current_version():
    """The version of the Rust crate, and as one number."""
    version = re.search(r'^version = "(.*)"$', MANIFEST.read_text(), re.M).group(1)
    major, minor, patch = map(int, version.split("."))
    return version, 1000000 * major + 1000 * minor + patch


def versioned(header):
    """The header with the version of the Rust crate."""
    version, number = current_version()
    words = [f'VERSION "{version}"', *(f"VERSION_{part} {number}" for part, number in zip(
        ("MAJOR", "MINOR", "PATCH"), version.split("."))), f"VERSION_NUMBER {number}"]
    for word in words:
        name = word.split()[0]
        header, count = re.subn(rf"(?m)^#define TK_{name} .*$", f"#define TK_{word}", header)
        if count != 1:
            sys.exit(f"tools/abi.py: tikeburo.h defines TK_{name} {count} times")
    return header


def numbered_version(text):
    """The file of `tk_version_number` with the version of the Rust crate."""
    return re.sub(r"(?m)( ≡ |^    )\d+", rf"\g<1>{current_version()[1]}", text)


def check_texts(header):
    """Sees that `tk_strerror` has a text for each status."""
    statuses = re.search(r"typedef int32_t tk_status;\nenum \{\n(.*?)\n\};", header, re.S).group(1)
    texts = re.search(r"tk_strerror\(tk_status status\) \{\n(.*?)\n\}\n", header, re.S).group(1)
    for name in re.findall(r"^ *(TK_\w+) = ", statuses, re.M):
        if f"case {name}:" not in texts:
            sys.exit(f"tools/abi.py: tk_strerror has no text for {name}")


def check_distinct(header, exports):
    """Sees that the header tests two handles before an export has them."""
    for name, item in exports.items():
        if sum(line.count(": &mut Handle") for line in item.lines) < 2:
            continue
        tested = name.removesuffix("_distinct")
        if tested == name or f"static inline tk_status {tested}(" not in header:
            sys.exit(f"tools/abi.py: {name} takes two handles, and no inline function tests them")


def in_rust(kind):
    """A type of C as Rust has it."""
    to = kind.removeprefix("const ").removesuffix("*").strip()
    to = IN_RUST.get(to, to)
    if not kind.endswith("*"):
        return to
    return ("*const " if kind.startswith("const ") else "*mut ") + to


def extern(name, result, found):
    """A function as Rust declares it."""
    words = [f"{own}: {in_rust(kind)}" for kind, own in found]
    tail = "" if result == "void" else f" -> {in_rust(result)}"
    line = f"    pub fn {name}({', '.join(words)}){tail};"
    if len(line) <= 100:
        return line
    return "\n".join([f"    pub fn {name}(", *(f"        {word}," for word in words),
                      f"    ){tail};"])


def ffi(text, made, known):
    """The Rust file with its declarations made anew."""
    used = set()
    for path in RUST.glob("*.rs"):
        used.update(re.findall(r"ffi::(\w+)", path.read_text()))
    text = structs(text, r"(pub struct {name} {{\n)(.*?)(}}\n)", lambda found, _: "".join(
        f"    pub {name}: {in_rust(kind)},\n" for kind, name in found))
    constants = "".join(
        f"pub const {name}: {'u8' if name.startswith('CHANGE_') else 'i32'} = {number};\n"
        for name, number in known.items() if name in used)
    text = re.sub(r"(pub const \w+: (i32|u8) = \d+;\n)+", lambda _: constants, text, count=1)
    calls = "\n".join(extern(name, *made[name]) for name in made if name in used)
    return re.sub(r'extern "C" \{\n.*?\n\}\n', lambda _: f'extern "C" {{\n{calls}\n}}\n', text,
                  count=1, flags=re.S)


def main():
    parser = argparse.ArgumentParser(description=__doc__,
                                     formatter_class=argparse.RawDescriptionHelpFormatter)
    parser.add_argument("--check", action="store_true", help="compare, and write nothing")
    check = parser.parse_args().check
    exports = {item.name: item for item in items("fn") if 'extern "C"' in item.lines[0]}
    known = numbers()
    header, made = functions(HEADER.read_text(), exports)
    header = structs(header, r"(typedef struct {name} {{\n)(.*?)(}} {name};)", c_fields)
    header = versioned(numbered(header, known))
    check_texts(header)
    check_distinct(header, exports)
    write(HEADER, header, check, Path(__file__).name)
    write(VERSION, numbered_version(VERSION.read_text()), check, Path(__file__).name)
    write(FFI, ffi(FFI.read_text(), made, known), check, Path(__file__).name)


main()
