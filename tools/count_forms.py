#!/usr/bin/env python3
"""Lists, for each point of docs/DESIGN-PASS.md, the lines of crates/*/src that may be places of it, and counts them.

    python3 tools/count_forms.py            the files as they are
    python3 tools/count_forms.py COMMIT     the files of a commit
    .. --counts                             the counts alone

A line that is listed is a place to look at: which of them are places, and what became of them, is in docs/DESIGN-PASS.md.
"""
import collections
import pathlib
import re
import subprocess
import sys

TOP = pathlib.Path(__file__).resolve().parent.parent


def sources(commit):
    """Path and lines of each source file."""
    if commit is None:
        for path in sorted(TOP.glob("crates/*/src/**/*.rt")):
            yield str(path.relative_to(TOP / "crates")), path.read_text().splitlines()
        return
    names = subprocess.run(["git", "-C", TOP, "ls-tree", "-r", "--name-only", commit, "crates"], capture_output=True, text=True, check=True)
    for name in sorted(names.stdout.split()):
        if re.fullmatch(r"crates/[^/]+/src/.*\.rt", name):
            text = subprocess.run(["git", "-C", TOP, "show", f"{commit}:{name}"], capture_output=True, text=True, check=True)
            yield name.removeprefix("crates/"), text.stdout.splitlines()


# What a line of a place looks like.
PATTERNS = [
    ("1 a variant that means none, or refused", r"^ +(Empty|Nothing|None|Refuse|Refused|Unreadable|Below)\b(\(.*\))?,$"),
    ("1 a number that names a kind, a class, a status or a cause", r"^(pub(\(crate\))? )?const [A-Z_]+: (u8|i32) = [0-9]+;|^ +(pub )?(class|status|kind|cause|layer): u8|\b(class|status|kind|cause|layer): u8[,)]"),
    ("1 a flag in a struct", r"^ +(pub )?[a-z_]+: bool,"),
    ("1, 4 an enum from a number or a text, or a number from an enum", r"fn [a-z_]+\([^)]*\) -> Option<(Class|Status|Outcome|Command|Opening|Game|Kind|i32)>|fn (number|cause_of|number_of|is_status|close_kind|total_kind)\("),
    ("3 an index or a count by hand", r"for [a-z_]+ in [A-Za-z0-9_]+\.\.|\bwhile\b|\.enumerate\(\)|\+= 1;"),
    ("4 words by a function, zeros and copies by hand", r"&'static str|fn (unused|nothing|new_hall|new_console|no_points|blank_sheet|start_of_sheet|done_or|spells)\b"),
    ("4 a type without Debug and equality", r"^#\[derive\((?!.*Debug)"),
    ("6 an array in a struct or a loose length", r"^ +(pub(\(crate\))? )?[a-z_]+: \[.*; .*\],|^ +(pub(\(crate\))? )?(waiting|count|length|len): usize,|\.insert\("),
    ("7 a step by a switch, a pointer, a dyn", r"=> [a-z_]+\(words|=> about\(|\bdyn\b|\bfn\("),
]


def declared(files):
    """Functions and types whose name, or whose whole text but for names and numbers, stands in two places."""
    names = collections.defaultdict(list)
    for path, lines in files:
        for number, line in enumerate(lines, 1):
            found = re.match(r" *(?:pub(?:\(crate\))? )?(?:const )?(?:fn|struct|enum) ([A-Za-z_]+)", line)
            if found and not re.search(r"\bfn (fmt|main|new|transaction|keys|verdict|run|model|from|try_from)\b", line):
                names[found.group(1)].append(f"{path}:{number}: {line.strip()}")
    return {name: places for name, places in names.items() if len({p.split(':')[0] for p in places}) > 1}


def repeated(files):
    """Facts that stand in the contracts of three functions or more."""
    facts = collections.defaultdict(list)
    for path, lines in files:
        for number, line in enumerate(lines, 1):
            found = re.match(r" *(requires|ensures)(?: [a-z_]+)? \{ (.*) \}$", line)
            if not found:
                continue
            kind, text = found.groups()
            parts = re.findall(r"\(([^()]*)\)", text) if kind == "requires" and "×" in text else [text]
            for part in parts:
                part = re.sub(r"self\.(now|old|new)", "self", part)
                if kind == "requires" or "result ≡" not in part and not part.startswith("OnOk") and not part.startswith("IfOk"):
                    facts[part].append(f"{path}:{number}: {line.strip()}")
    return {fact: places for fact, places in facts.items() if len(places) > 2}


def main():
    words = [w for w in sys.argv[1:] if not w.startswith("--")]
    show = "--counts" not in sys.argv
    files = list(sources(words[0] if words else None))

    def tell(title, found):
        print(f"{len(found):4}  {title}")
        for line in found if show else []:
            print(f"          {line}")

    for title, pattern in PATTERNS:
        tell(title, [f"{path}:{number}: {line.strip()}" for path, lines in files for number, line in enumerate(lines, 1) if re.search(pattern, line)])
    twins = declared(files)
    tell("2 a name declared in two files", [f"{name}: {' | '.join(places)}" for name, places in sorted(twins.items())])
    facts = repeated(files)
    tell("5 a fact in three contracts or more", [f"{len(places)} times {fact}: {' | '.join(p.split(': ')[0] for p in places)}" for fact, places in sorted(facts.items())])


main()
