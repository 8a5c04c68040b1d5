"""Spells the repository's own definitions and lemmas as today's Rattle does: python3 tools/respell.py [FOLDER]

A word is in snake case, and a fact, that is a name with a capital, in upper camel case: `first-no-code` becomes `first_no_code`, and
`First-no` becomes `FirstNo`. A capital that port.py left inside a word, as in `first_Marks`, becomes small. The script is run once, at the
top of the repository, after the kit's port.py. Names that Rattle makes, as those of goals and invariants, keep their dashes, as do names of
the library. It prints the names that would fall together, and then writes nothing."""
import re
import subprocess
import sys
from pathlib import Path

PART = r"[0-9A-Za-z₀-₉𝟘𝟙ω'_]"
WORD = rf"(?:{PART}|-(?={PART}))+"
DECLARED = re.compile(rf"\s*(?:abbrev |unfoldable |pub |record |data |ruleset )*({WORD})(?: [({{].*)? :(?P<type>.*)")
HEAD = re.compile(rf"\s*(?:pub )?(?:record|data|ruleset) ({WORD})")
IMPORT = re.compile(r"^(?:ghost )?use ([\w.·+-]+)\.\{([^}]*)\}", re.M)

# Names that a function of src/ has too, or that go with one that has.
OTHER = {
    "sum-at": "sum_at_place",
    "read-line": "line_of_read",
    "read-lines": "lines_of_reads",
    "write-line": "line_of_write",
    "write-lines": "lines_of_writes",
    "sum-line": "line_of_sum",
    "sum-lines": "lines_of_sums",
}


def respelled(name):
    if name in OTHER:
        return OTHER[name]
    if name[0].isupper():
        first, *rest = name.split("-")
        return first + "".join(part[:1].upper() + part[1:] for part in rest)
    return re.sub(r"_([A-Z])(?=[a-z])", lambda part: "_" + part[1].lower(), name.replace("-", "_"))


def declared(text):
    """The names that a file declares, but for those of goals and invariants."""
    names = set()
    for line in text.split("\n"):
        if line.lstrip().startswith("--") or line.startswith("use "):
            continue
        head = HEAD.match(line)
        if head:
            names.add(head[1])
            continue
        match = DECLARED.match(line)
        if match and not match["type"].strip().startswith("goal."):
            names.add(match[1])
        names.update(re.findall(rf"(?:\(|\blet )({WORD}) :", line))
    names.update(re.findall(rf" as ({WORD})", text))
    return names


def library_names(text, crates):
    """The names that a file imports from anywhere but the repository's crates."""
    names = set()
    for module, imported in IMPORT.findall(text):
        parts = re.split(r"[.·]", module)
        if parts[0] != "Rattle" or parts[1] not in crates:
            names.update(name.split(" as ")[0].strip() for name in imported.split(","))
    return names


def rewritten(text, names, kept, clashes):
    """The text with the names respelled, but for those that are kept. What falls together is added to the clashes."""
    new = text
    for name in sorted(names - kept, key=len, reverse=True):
        at = re.compile(rf"(?<![0-9A-Za-z₀-₉𝟘𝟙ω'_◌-]){re.escape(name)}(?![0-9A-Za-z₀-₉𝟘𝟙ω'_-])")
        if not at.search(new):
            continue
        if re.search(rf"(?<![0-9A-Za-z₀-₉𝟘𝟙ω'_◌.-]){re.escape(respelled(name))}(?![0-9A-Za-z₀-₉𝟘𝟙ω'_-])", text):
            clashes.append(f"{name} falls together with {respelled(name)}")
        new = at.sub(respelled(name), new)
    return new


def main():
    top = Path(sys.argv[1] if len(sys.argv) > 1 else ".")
    crates = re.findall(r"^(\w+)[^#\n:]*:", (top / "crates.txt").read_text(), re.M)
    listed = subprocess.check_output(["git", "ls-files", "--cached", "--others", "--exclude-standard", "crates"], cwd=top, text=True)
    paths = [top / name for name in listed.split("\n") if name.endswith((".antt", ".rt")) and (top / name).exists()]
    texts = {path: path.read_text() for path in paths}
    own = {path: {name for name in declared(text) if respelled(name) != name} for path, text in texts.items() if path.suffix == ".antt"}
    every = set().union(*own.values())
    written, clashes = {}, []
    for path, text in texts.items():
        theirs = library_names(text, crates)
        clashes += [f"{path}: {name} is a name of the library too" for name in own.get(path, set()) & theirs]
        fallen = []
        written[path] = rewritten(text, every, theirs, fallen)
        clashes += [f"{path}: {it}" for it in fallen]
    if clashes:
        print("\n".join(clashes))
        return 1
    for path, text in written.items():
        path.write_text(text)
    return 0


if __name__ == "__main__":
    sys.exit(main())
