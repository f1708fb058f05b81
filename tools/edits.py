"""What tools/edits.sh reads: the edits of the crates, and what `rt must-fail` says of them.

  edits.py look TOP [NAME..]         tells the edits that can't be applied
  edits.py tell TOP SAID [NAME..]    a line for each edit, from the file SAID with what `rt must-fail` said"""

import os
import re
import sys

from command import ended, read
from words import Wrong

FOLDERS = ("must-fail", "edits")
SAID = re.compile(r"rt: must-fail ([^/ ]+)/(\S+)\.edit: (.*)")
REFUSED = "refused, as it must be"
CLAUSE = re.compile(r"(?:note: )?(?:\./)?(\S+?:\d+):\d+: .*?\(`([^`]+)`\)")


def crates_of(top, names):
    """The crates named, or all that have a folder."""
    there = sorted(name for name in os.listdir(os.path.join(top, "crates")) if os.path.isdir(os.path.join(top, "crates", name)))
    for name in names:
        if name not in there:
            raise Wrong(f"{name}: no crate has this name")
    return [name for name in there if not names or name in names]


def edits_of(top, crate):
    """The edits of a crate: the folder and the name of each."""
    found = []
    for folder in FOLDERS:
        at = os.path.join(top, "crates", crate, folder)
        if os.path.isdir(at):
            found += [(folder, name) for name in sorted(os.listdir(at))]
    return found


def fault_of(text, crate):
    """Why an edit can't be applied to the files of a crate's folder, or None. A later pair edits what the earlier ones made."""
    path, old, texts, pairs = "", "", {}, 0
    for line in text.split("\n"):
        if line.startswith("file: "):
            path = line[len("file: ") :].strip()
            if not path.startswith(("src/", "specs/", "proofs/")) or ".." in path or not os.path.isfile(os.path.join(crate, path)):
                return f"there is no file {path}"
            texts.setdefault(path, read(os.path.join(crate, path)))
        elif line.startswith("old: "):
            old = line[len("old: ") :]
            if not path:
                return "its old text stands before a file"
            count = texts[path].count(old)
            if count != 1:
                return f"its old text stands {count} times in {path}, and not once: {old.strip()}"
        elif line.startswith("new:"):
            if not old:
                return "a new text stands before its old one"
            new = line[len("new:") :]
            texts[path] = texts[path].replace(old, new[1:] if new.startswith(" ") else new)
            old, pairs = "", pairs + 1
    return "an old text has no new one" if old else None if pairs else "it has no old and new text"


def look(top, names):
    """The lines on the edits that can't be applied."""
    faults = []
    for crate in crates_of(top, names):
        seen = set()
        for folder, name in edits_of(top, crate):
            path = os.path.join("crates", crate, folder, name)
            if not re.fullmatch(r"[A-Za-z0-9_-][A-Za-z0-9_.-]*\.edit", name):
                faults.append(f"{path}: the name of an edit ends in .edit")
                continue
            fault = "an edit of the other folder has its name" if name in seen else fault_of(read(os.path.join(top, path)), os.path.join(top, "crates", crate))
            seen.add(name)
            if fault:
                faults.append(f"{path}: {fault}")
    return faults


def verdict(said):
    """What came of an edit, in the words of this tool."""
    if said.startswith("NOT REFUSED"):
        return "NOT REFUSED"
    if not said.startswith(REFUSED):
        return said
    rest = said[len(REFUSED) :]
    if rest.startswith(" (only by a limit"):
        return "refused by a limit of the prover alone"
    if rest.startswith(" (only because a proof file"):
        return "refused by a proof file alone, which names what it takes away"
    found = CLAUSE.match(rest[2:])
    return f"refused by {found[2]} at {found[1]}" if found else f"refused by {rest[2:].strip() or 'the prover'}"


def tell(top, said, names):
    """The lines on all edits of these crates, and whether each is refused."""
    came = {(found[1], found[2]): verdict(found[3]) for found in map(SAID.match, said.split("\n")) if found}
    lines, well = [], True
    for crate in crates_of(top, names):
        for name in sorted({name for _, name in edits_of(top, crate)}):
            edit = name[: -len(".edit")]
            one = came.get((crate, edit), "NOT TRIED")
            well = well and one.startswith("refused")
            lines.append(f"{crate} {edit} {one}")
    return lines, well


def act(words):
    """Does what the words say, and answers the status."""
    if words[0] == "look":
        faults = look(words[1], words[2:])
        print("\n".join(faults), end="\n" if faults else "")
        return 1 if faults else 0
    said = read(words[2])
    lines, well = tell(words[1], said, words[3:])
    print("\n".join(lines), end="\n" if lines else "")
    if any(line.endswith(" NOT TRIED") for line in lines):
        print("rt must-fail said at the end:", *said.rstrip("\n").split("\n")[-20:], sep="\n", file=sys.stderr)
    return 0 if well else 1


def main(words):
    if len(words) < 2 or words[0] not in ("look", "tell") or words[0] == "tell" and len(words) < 3:
        print(__doc__, file=sys.stderr)
        return 2
    try:
        return act(words)
    except Wrong as wrong:
        print(wrong, file=sys.stderr)
        return 1


if __name__ == "__main__":
    sys.exit(ended(main))
