"""The definitions of the crates, as their files declare them, and the names that each uses.

A module is a file of definitions, `px_world.specs.Event` for crates/px_world/specs/Event.antt, or a file of code, `px_world.src.event` for
crates/px_world/src/event.rt. A definition is a pair of a module and a name; a name of the kit is a text, as `Rattle.std.specs.Prelude.map`."""

import os
import re

from words import Wrong

USE = re.compile(r"^\s*(pub |ghost )?use ([\w.?]+?)(?:\.\{(.*)\}| as (\w+));?\s*$")
HEAD = re.compile(r"(?:(?:abbrev|unfoldable|opaque) )?(?:pub )?(?:(record|data) )?(\S+)")
STARTS = re.compile(r"(?:abbrev|unfoldable|opaque|pub|record|data)\b")
KINDS = "struct|enum|trait|const|type"
DECLARED = re.compile(rf"^(?:pub(?:\([a-z]+\))? )?({KINDS}) (\w+)")
NAMED = re.compile(rf"\b(?:{KINDS}|fn|mod) (\w+)")
MODEL = re.compile(r"^impl(?:<.*?>)? Model for (\w+)")
BOUND = re.compile(r"[({]([^(){}:]*?) ?: ")
LAMBDA = re.compile(r"λ ([^.]*?)\. ")
TAKEN = re.compile(r"^\s*(?:let )?([\w' ]+?) (?:←|=|: )")
TOKEN = re.compile(r"[^\s(){}\[\],;]+")


class Definition:
    """What a file declares: its name, its lines of text, how many of them have no comment alone, the words that it uses, and what it makes itself
    (constructors, variants)."""

    def __init__(self, name, kind):
        self.name, self.kind, self.lines, self.makes, self.head = name, kind, [], [], ""


def told(lines):
    """The lines that say something: no blank line, and none with a comment or an attribute alone."""
    return [line for line in lines if line.strip() and not line.strip().startswith(("--", "//", "#["))]


class Module:
    """A file: its definitions by name, its imports (a local name, with the module or kit name and the name there), and modules by their short names."""

    def __init__(self, path):
        self.path, self.found, self.imports, self.short, self.passed, self.makers = path, {}, {}, {}, {}, {}

    def add(self, definition):
        self.found[definition.name] = definition
        for name in definition.makes:
            self.makers.setdefault(name, definition.name)


def take_use(module, line):
    """Notes the names that a line imports from definitions; answers whether it is such a line."""
    use = USE.match(line)
    if use is None:
        return False
    passed, place, names, short = use.groups()
    if short:
        module.short[short] = place
        return True
    for part in names.split(","):
        name, _, local = part.strip().partition(" as ")
        if name:
            module.imports[local or name] = (place, name)
            if passed == "pub ":
                module.passed[local or name] = (place, name)
    return True


def variants_of(lines):
    """The constructors that the lines after a `data` line declare."""
    found = []
    for line in told(lines[1:]):
        name, colon, _ = line.strip().partition(" : ")
        if colon:
            found += name.replace("pub ", "").split()
    return found


def read_definitions(path, text):
    """The module of a file of definitions."""
    module, depth, head, current = Module(path), 0, "", None
    for number, line in enumerate(text.split("\n"), 1):
        plain = line.strip()
        if not plain or plain.startswith("--") or plain.startswith("pub mod ") or take_use(module, line):
            continue
        if line.startswith("module "):
            depth, head = 2, line
            continue
        inner = len(line) - len(line.lstrip())
        if inner < depth:
            depth, head = 0, ""
        if inner == depth and STARTS.match(plain):
            kind, name = HEAD.match(plain).groups()
            current = Definition(name, kind or "function")
            current.head = head
            module.add(current)
        if current is None:
            raise Wrong(f"{path}:{number}: this line belongs to no definition: {plain}")
        current.lines.append(line[depth:])
    for current in module.found.values():
        if current.kind == "data":
            current.makes = variants_of(current.lines)
            module.add(current)
    return module


def rust_uses(text):
    """The pairs of a local name and the path that it stands for, of the `use` lines of a file of code."""
    found = []
    for path in re.findall(r"^\s*(?:pub(?:\(crate\))? )?use ([^;]+);", text, re.M):
        found += rust_paths("", re.sub(r"\s+", " ", path).strip())
    return found


def rust_paths(front, path):
    """The pairs of one `use`, whose braces may stand in each other."""
    at = path.find("{")
    if at >= 0:
        parts, depth, start = [], 0, at + 1
        for i in range(at, len(path)):
            depth += {"{": 1, "}": -1}.get(path[i], 0)
            if (path[i] == "," and depth == 1) or depth == 0:
                parts.append(path[start:i].strip())
                start = i + 1
            if depth == 0:
                break
        return [pair for part in parts if part for pair in rust_paths(front + path[:at], part)]
    whole, _, local = (front + path).partition(" as ")
    return [(local or whole.split("::")[-1], whole)]


def block_end(lines, start):
    """The line after the one that ends what begins at a line: at a brace or a semicolon outside of all braces."""
    depth = 0
    for i in range(start, len(lines)):
        bare = lines[i].split("//")[0]
        depth += bare.count("{") + bare.count("(") - bare.count("}") - bare.count(")")
        if depth == 0 and bare.rstrip().endswith(("}", ";")):
            return i + 1
    return len(lines)


def read_code(path, text):
    """The module of a file of code: its types, traits and constants. What contracts see of a type by its `Model` belongs to it."""
    module, lines = Module(path), text.split("\n")
    module.short = {local: f"use {whole}" for local, whole in rust_uses(text)}
    for i, line in enumerate(lines):
        if line.lstrip().startswith("ghost use "):
            take_use(module, line)
        declared, model = DECLARED.match(line), MODEL.match(line)
        if declared:
            current = Definition(declared.group(2), declared.group(1))
            current.lines = lines[i : block_end(lines, i)]
            if current.kind == "enum":
                current.makes = re.findall(r"^    (\w+)", "\n".join(told(current.lines)), re.M)
            module.add(current)
        elif model and model.group(1) in module.found:
            module.found[model.group(1)].lines += [it for it in lines[i : block_end(lines, i)] if not it.lstrip().startswith("ghost use ")]
    return module


def named_in(text):
    """The names of all that a text of code declares: types, traits, constants, functions and modules, those of its types too."""
    return set(NAMED.findall(text))


def chunks(definition):
    """The lines of a definition, apart where each equation begins."""
    parts = []
    for line in told(definition.lines):
        if not parts or not line.startswith(" "):
            parts.append([])
        parts[-1].append(line)
    return ["\n".join(part) for part in parts]


def bound_in(chunk, kind):
    """The names that a chunk binds itself: after λ, in brackets with their type, by `let` and arrows, and those of a record's fields."""
    found = set()
    for names in BOUND.findall(chunk) + LAMBDA.findall(chunk):
        found.update(names.split())
    for line in chunk.split("\n"):
        if "←" in line or line.strip().startswith("let "):
            taken = TAKEN.match(line)
            if taken:
                found.update(taken.group(1).split())
    if kind == "record":
        found.update(re.findall(r"^ +(?:pub )?(\w+) : ", chunk, re.M))
    return found


def tokens_of(text):
    """The words of a text that may be names, each as its parts between dots."""
    text = re.sub(r'"(?:[^"\\]|\\.)*"', " ", text)
    return [token.strip(".").split(".") for token in TOKEN.findall(text) if token.strip(".")]


def file_of(module):
    """The path of a module's file below the folder of the crates."""
    crate, part, *rest = module.split(".")
    return os.path.join(crate, part, *rest) + (".antt" if part == "specs" else ".rt")
