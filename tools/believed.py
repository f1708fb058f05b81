#!/usr/bin/env python3
"""What must be believed: the definitions that the contract of a function rests on, down to the bottom.

  tools/believed.py                  by crate, how many definitions `replay` and `run` rest on, and how many lines these have
  tools/believed.py --table          the same as a table of Markdown
  tools/believed.py --check FILE     tells in a line where the table of a file differs from it
  tools/believed.py --write FILE     puts the table into a file, between the lines that mark its place
  tools/believed.py --files [NAME]   the files in which they stand, lowest crate first, for `replay` or `run`
  tools/believed.py --names [NAME]   each definition, with its file and its lines

It begins at the signature and the clauses of the function in px_app and follows each name to where it is declared: a definition of specs/, or a type, a
trait or a constant of src/, with what contracts see of a type. A line of a definition counts unless it is blank or has a comment alone. Names of
the kit are counted, and not followed."""

import os
import re
import sys

import definitions
from command import asked, ended, read
from crates import crates_of
from definitions import Definition, bound_in, chunks, file_of, read_code, read_definitions, told, tokens_of
from marked import Marked
from words import Wrong

TOP = os.path.dirname(os.path.dirname(os.path.abspath(__file__)))
TABLE = Marked("a table", "<!-- believed: tools/believed.py -->", "<!-- end of believed -->", "the definitions give", "tools/believed.py")
STARTS = {"replay": ("px_app.src.replaying", "replay"), "run": ("px_app.src.program", "run")}


class Sources:
    """The files of the crates below a folder, read as they are asked for."""

    def __init__(self, top):
        self.at, self.modules, self.homes = os.path.join(top, "crates"), {}, {}
        self.crates = list(crates_of(read(os.path.join(top, "crates.txt"))))

    def module(self, name):
        """The module of this name, or None where there is no such file."""
        if name not in self.modules:
            path = file_of(name)
            whole = os.path.join(self.at, path)
            read_file = read_definitions if path.endswith(".antt") else read_code
            self.modules[name] = read_file(f"crates/{path}", read(whole)) if os.path.isfile(whole) else None
        return self.modules[name]

    def declared_in(self, crate):
        """Where each type, trait and constant of a crate's code is declared: by its name, the modules."""
        if crate not in self.homes:
            found = self.homes[crate] = {}
            front = os.path.join(self.at, crate, "src")
            for at, folders, files in os.walk(front):
                folders.sort()
                for name in sorted(files):
                    if name.endswith(".rt"):
                        parts = os.path.relpath(os.path.join(at, name[:-3]), front).split(os.sep)
                        module = ".".join([crate, "src", *parts])
                        for declared in self.module(module).found:
                            found.setdefault(declared, []).append(module)
        return self.homes[crate]

    def code_name(self, crate, path):
        """What a path of code, such as `fault::ReadError`, names in a crate: a module and a name, or None where it is none of the repository's types."""
        *modules, name = path
        homes = self.declared_in(crate).get(name, [])
        wanted = ".".join([crate, "src", *(it for it in modules if it not in ("crate", "self", "super"))])
        if wanted in homes or len(homes) == 1:
            return (wanted if wanted in homes else homes[0]), name
        if homes:
            raise Wrong(f"crates/{crate}/src: {name} is declared in {len(homes)} files, and {'::'.join(path)} doesn't say which")
        root = self.module(f"{crate}.src.lib")
        further = root.short.get(name, "") if root else ""
        other, *rest = further.removeprefix("use ").split("::")
        return self.code_name(other, rest) if rest and other in self.crates and other != crate else None

    def spec_name(self, place, name):
        """What an import from a place names: a module and a name, or a text for a name of the kit."""
        front, *parts = place.split(".")
        if front != "Rattle" or parts[0] not in self.crates:
            return f"{place}.{name}"
        crate, _, *path = parts
        if path[0] != "declared":
            return self.spec_found(f"{crate}.specs.{'.'.join(path)}", name)
        path = path[1:]
        if path[-1] == "TheConstants":
            return self.code_found(".".join([crate, "src", *(path[:-1] or ["lib"])]), name)
        if path[-1] == "TheVariants":
            path.pop()
        return self.code_found(".".join([crate, "src", *(path[:-1] or ["lib"])]), path[-1])

    def code_found(self, module, name):
        there = self.module(module)
        if there is None or name not in there.found:
            raise Wrong(f"crates/{file_of(module)}: {name} is imported from here, and isn't declared")
        return module, name

    def spec_found(self, module, name):
        there = self.module(module)
        if there is not None and name in there.found:
            return module, name
        if there is not None and name in there.makers:
            return module, there.makers[name]
        if there is not None and name in there.passed:
            return self.spec_name(*there.passed[name])
        raise Wrong(f"crates/{file_of(module)}: {name} is imported from here, and isn't declared")


def named(sources, module, parts):
    """What a word of a module names, or None: a module and a name, or a text for a name of the kit."""
    there, name = sources.module(module), parts[0]
    if name not in there.found and f"◌{name}◌" in {**there.found, **there.imports}:
        name = f"◌{name}◌"
    if name in there.found:
        return module, name
    if name in there.makers:
        return module, there.makers[name]
    if name in there.imports:
        return sources.spec_name(*there.imports[name])
    short = there.short.get(name)
    if short and short.startswith("use "):
        crate, *path = short[len("use ") :].split("::")
        if crate in sources.crates:
            return sources.code_name(crate, path)
        own = module.split(".")[0]
        return sources.code_name(own, path) if crate in ("crate", "self", "super") else None
    return sources.spec_name(short, parts[1]) if short and len(parts) > 1 else None


def is_variable(sources, module, name):
    """Whether a word before an equation's sign is a variable though it is also the name of a function, which no pattern has."""
    what = named(sources, module, [name])
    return isinstance(what, tuple) and sources.module(what[0]).found[what[1]].kind == "function"


def words_of(sources, module, definition):
    """The words of a definition that may be names of others."""
    if module.split(".")[1] == "src":
        text = "\n".join(told(definition.lines)).replace(";", " ")
        for token in re.findall(r"[^\s(){}\[\],;:<>&]+", text):
            yield token.strip(".").split(".")
        return
    yield from tokens_of(definition.head)
    for chunk in chunks(definition):
        bound = bound_in(chunk, definition.kind)
        if definition.kind == "function" and not definitions.STARTS.match(chunk):
            left = re.split(r" =(?:\s|$)", chunk, maxsplit=1)[0]
            bound |= {parts[0] for parts in tokens_of(left)[1:] if len(parts) == 1 and is_variable(sources, module, parts[0])}
        yield from (parts for parts in tokens_of(chunk) if parts[0] not in bound)
        if re.search(r"\bdo$", chunk, re.M):
            yield [">>="]


def contract_of(sources, module, function):
    """The signature and the clauses of a function, as a definition."""
    path = os.path.join(sources.at, file_of(module))
    lines = read(path).split("\n")
    starts = [i for i, line in enumerate(lines) if re.match(rf"(?:pub )?fn {function}\b", line)]
    if len(starts) != 1:
        raise Wrong(f"crates/{file_of(module)}: there is no function {function}")
    found = Definition(function, "contract")
    found.lines = lines[starts[0] : lines.index("{", starts[0])]
    return found


def closure(sources, module, function):
    """All that a function's contract rests on: the definitions, and the names of the kit."""
    found, kit = {}, set()
    wanted = [(module, contract_of(sources, module, function))]
    while wanted:
        module, definition = wanted.pop()
        for parts in words_of(sources, module, definition):
            what = named(sources, module, parts)
            if isinstance(what, str):
                kit.add(what)
            elif what is not None and what not in found:
                found[what] = sources.module(what[0]).found[what[1]]
                wanted.append((what[0], found[what]))
    return found, kit


def counts(sources, found):
    """By crate, in the order of crates.txt, how many definitions there are and how many lines they have."""
    rows = {name: [0, 0] for name in sources.crates}
    for (module, _), definition in found.items():
        row = rows[module.split(".")[0]]
        row[0] += 1
        row[1] += len(told(definition.lines))
    return rows


def closures(top):
    """The sources, and of each function its definitions and the names of the kit."""
    sources = Sources(top)
    return sources, {name: closure(sources, *start) for name, start in STARTS.items()}


def sums(sources, found):
    """The rows of the counts: a crate, and for each function its definitions and lines; then those of all crates."""
    each = {name: counts(sources, part) for name, (part, _) in found.items()}
    rows = [(crate, *(n for name in found for n in each[name][crate])) for crate in sources.crates if any(each[name][crate][0] for name in found)]
    return rows + [("all", *(sum(row[i] for row in rows) for i in range(1, 1 + 2 * len(found))))]


def number(n):
    return f"{n:,}" if n else ""


def table(top):
    """The table as lines of Markdown."""
    sources, found = closures(top)
    heads = [head for name in found for head in (f"`{name}`: definitions", "lines")]
    lines = ["| Crate | " + " | ".join(heads) + " |", "|---|" + "--:|" * len(heads)]
    lines += [f"| {row[0]} | " + " | ".join(number(n) for n in row[1:]) + " |" for row in sums(sources, found)]
    kit = " and ".join(f"{len(names)} by `{name}`" for name, (_, names) in found.items())
    crates = " and ".join(f"{sum(1 for row in counts(sources, part).values() if row[0])} by `{name}`" for name, (part, _) in found.items())
    return lines + ["", f"Crates: {crates}. Names of the kit: {kit}."]


def plain(top):
    """The counts as lines of text."""
    sources, found = closures(top)
    rows = sums(sources, found)
    wide = max(len(row[0]) for row in rows)
    lines = [" " * wide + "".join(f"  {name + ': definitions':>19}  {'lines':>5}" for name in found)]
    for row in rows:
        pairs = [row[i : i + 2] for i in range(1, len(row), 2)]
        lines.append((f"{row[0]:{wide}}" + "".join(f"  {number(a):>19}  {number(b):>5}" for a, b in pairs)).rstrip())
    return lines


def by_file(sources, found):
    """The definitions of each file, lowest crate first, in the order of the file."""
    files = {}
    for module, name in found:
        files.setdefault(module, set()).add(name)
    order = sorted(files, key=lambda module: (sources.crates.index(module.split(".")[0]), module.split(".")[1] != "src", module))
    return [(module, [it for it in sources.module(module).found.values() if it.name in files[module]]) for module in order]


def listed(top, name, with_names):
    """The lines on the files of a function's definitions, and where wanted on these themselves."""
    sources = Sources(top)
    lines = []
    for module, there in by_file(sources, closure(sources, *STARTS[name])[0]):
        lines.append(f"crates/{file_of(module)}  {sum(len(told(it.lines)) for it in there)}")
        if with_names:
            lines += [f"    {it.name}  {len(told(it.lines))}" for it in there]
    return lines


def act(words, top):
    """Does what the words say; answers whether they say anything."""
    if words in ([], ["--table"]):
        print("\n".join(table(top) if words else plain(top)))
    elif len(words) == 2 and words[0] == "--check":
        TABLE.check(table(top), read(words[1]), words[1])
    elif len(words) == 2 and words[0] == "--write":
        TABLE.write(table(top), words[1])
    elif words[:1] in (["--files"], ["--names"]) and (len(words) == 1 or len(words) == 2 and words[1] in STARTS):
        print("\n".join(listed(top, (words[1:] or ["replay"])[0], words[0] == "--names")))
    else:
        return False
    return True


def main(words):
    return asked(lambda: act(words, TOP), __doc__)


if __name__ == "__main__":
    sys.exit(ended(main))
