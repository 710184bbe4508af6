"""Lists the lines of src/ in which an older form of code can stand, by the points of docs/DESIGN-PASS.md.

python3 tools/places.py [FOLDER]          how many lines by point and crate, in FOLDER/crates (here if not given)
python3 tools/places.py [FOLDER] --list   the lines themselves

A line that is listed is where to look, and not always a place: docs/DESIGN-PASS.md says which are.
"""

import collections
import glob
import os
import re
import sys

POINTS = {
    "1a enums": r"^\s*(pub(\(crate\))? )?enum \w+",
    "1b results handed on by hand": r"(Err\(\w+\)|Ok\(\(\)\)|Ok\(\w+\)) => (return )?(Err|Ok|Some|None)\b|else \{ return Err|unreachable\(\)",
    "1c numbers for refusals, and 0 for none": r"-> (Result<)?\(?u8\b|Option<u8>|fault: u8|Ok\(0\)|^\s*0$",
    "2a functions of one name": None,
    "2b types of one number": None,
    "3a index loops": r"\bfor \w+ in (\()?[^{]*\.\.[^{]*\{|\bwhile \w+ <",
    "3b counts by hand": r"\b\w+(\.\w+)? \+= 1;|= \w+(\.\w+)?\.saturating_add\(1\)|return (true|column|i);",
    "4a conversions named of": r"\bfn (of|told|all_told)\(",
    "4b comparisons and texts by hand": r"\bfn (is|before|same_\w+|sentence)\(|as u8 == |fmt::Display for",
    "5a clauses said three times": None,
    "5b parameters that travel": None,
    "6 arrays": r"(: |&mut |\()\[[A-Za-z0-9_]+(<[^>]*>)?; ?[0-9A-Z_]+\]|numbers: Vec|\blen: usize",
    "7a steps chosen by ifs": r"if self\.takes\(|if same_word\(",
    "7b states": r"Awaited::\w+ =>",
}


def sources(root):
    for path in sorted(glob.glob(os.path.join(root, "crates", "*", "src", "*.rt"))):
        crate = os.path.relpath(path, os.path.join(root, "crates")).split(os.sep)[0]
        with open(path, encoding="utf-8") as text:
            yield crate, os.path.relpath(path, root), text.read().split("\n")


def code(line):
    return line.split("//")[0]


def by_pattern(files, pattern):
    for crate, path, lines in files:
        for number, line in enumerate(lines, 1):
            if re.search(pattern, code(line)):
                yield crate, f"{path}:{number}: {line.strip()}"


def functions_of_one_name(files):
    """Functions outside impls of traits whose name stands in two files or more."""
    seen = collections.defaultdict(list)
    for crate, path, lines in files:
        impl_of_trait = False
        for number, line in enumerate(lines, 1):
            if re.match(r"impl.* for ", line) or line.startswith("pub trait"):
                impl_of_trait = True
            elif re.match(r"\S", line):
                impl_of_trait = False
            name = re.search(r"\bfn (\w+)", code(line))
            if name and not impl_of_trait and not line.strip().startswith("fn fmt"):
                seen[name.group(1)].append((crate, f"{path}:{number}: {line.strip()}"))
    common = {"new", "main", "fmt", "of", "get", "lost", "judge", "collect", "list", "begin", "take", "read", "deliver", "answer", "number", "push", "finish"}
    for name, places in sorted(seen.items()):
        if name not in common and len({place.split(":")[0] for _, place in places}) > 1:
            yield from places


def types_of_one_number(files):
    for crate, path, lines in files:
        text = "\n".join(lines)
        for found in re.finditer(r"struct (\w+) \{\n\s*(?:pub )?\w+: (u8|u16|u32|u64|usize),\n(?:\s*ghost [^\n]*\n)*\}", text):
            yield crate, f"{path}: {found.group(1)}, of a {found.group(2)}"


def clauses_said_often(files):
    """Parts of clauses, apart from what they are said of, that stand in three functions or more of a crate."""
    seen = collections.defaultdict(list)
    for crate, path, lines in files:
        for number, line in enumerate(lines, 1):
            if re.match(r"\s*(requires|ensures)\b", line):
                for part in re.findall(r"\(\w+ [\w.]+ [\w.]+ (?:self|a|b|watch)\.\w+\)|\w+(?:\.\w+)* ≤ (?:\d+|length [\w.]+)|Follows \w+ \w+ self\.now", line):
                    seen[crate, re.sub(r"\.(old|new|now)|result\.?\w*", "", part)].append((path, number, line.strip()))
    for (crate, part), places in sorted(seen.items()):
        if len({(path, number) for path, number, _ in places}) > 2:
            for path, number, line in sorted(set(places)):
                yield crate, f"{path}:{number}: {part.strip()}"


def parameters_that_travel(files):
    """Pairs of a name and a type that three functions or more of a file take side by side."""
    for crate, path, lines in files:
        text = re.sub(r"//[^\n]*", "", "\n".join(lines))
        seen = collections.Counter()
        for found in re.finditer(r"\bfn \w+(?:<[^>]*>)?\(([^)]*)\)", text):
            names = re.findall(r"(\w+): ([^,]+)", " ".join(found.group(1).split()))
            for one, other in zip(names, names[1:]):
                seen[one, other] += 1
        for pair, count in sorted(seen.items()):
            if count > 2:
                yield crate, f"{path}: {pair[0][0]}: {pair[0][1]}, {pair[1][0]}: {pair[1][1]} ({count} functions)"


COUNTED = {
    "2a functions of one name": functions_of_one_name,
    "2b types of one number": types_of_one_number,
    "5a clauses said three times": clauses_said_often,
    "5b parameters that travel": parameters_that_travel,
}


def main():
    words = [word for word in sys.argv[1:] if word != "--list"]
    root = words[0] if words else "."
    files = list(sources(root))
    for point, pattern in POINTS.items():
        found = list(by_pattern(files, pattern) if pattern else COUNTED[point](files))
        crates = collections.Counter(crate for crate, _ in found)
        print(f"{point}: {len(found)}  ({', '.join(f'{crate} {count}' for crate, count in sorted(crates.items()))})")
        if "--list" in sys.argv:
            for _, line in found:
                print("    " + line)


main()
