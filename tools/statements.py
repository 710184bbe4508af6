#!/usr/bin/env python3
"""Lays the statements of two checkouts side by side: each definition, field and lemma of specs/ and of the lemma files in proofs/, wherever it stands.

usage: python3 tools/statements.py OLD NEW CRATE..
"""
import collections
import glob
import re
import sys

HEAD = re.compile(r"^(\s*)((?:abbrev |unfoldable |pub |data |record )*)([^\s:(){}]+)((?:\s*\{[^}]*\}|\s*\([^)]*\))*)\s*:\s(.*)$")


def statements(root, crate):
    """The statements of a crate by name, without `pub` and comments."""
    found = collections.defaultdict(list)
    folder = f"{root}/crates/{crate}"
    for path in glob.glob(f"{folder}/specs/**/*.antt", recursive=True) + glob.glob(f"{folder}/proofs/*.antt"):
        with open(path, encoding="utf-8") as f:
            lines = re.sub(r"(^|\s)--.*", "", f.read()).split("\n")
        for i, line in enumerate(lines):
            head = HEAD.match(line)
            if not head or line.strip().startswith("use"):
                continue
            parts = [line.strip()]
            for more in lines[i + 1 :]:
                if not more.strip() or len(more) - len(more.lstrip()) <= len(head.group(1)) or re.match(r"\s*(pub )?\S+ :", more):
                    break
                parts.append(more.strip())
            found[head.group(3)].append(re.sub(r"\bpub ", "", " ".join(parts)))
    return found


def main():
    old_root, new_root, *crates = sys.argv[1:]
    count = 0
    for crate in crates:
        old, new = statements(old_root, crate), statements(new_root, crate)
        for name, texts in old.items():
            for text in texts:
                count += 1
                if text not in new.get(name, []):
                    print(f"{crate}\n  old {text}\n  new {new.get(name, ['none'])}")
        for name in new:
            if name not in old:
                print(f"{crate}\n  added {name}")
    print(f"{count} statements compared")


main()
