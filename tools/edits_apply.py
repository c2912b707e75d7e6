#!/usr/bin/env python3
"""Say which must-fail edits do not apply: python3 tools/edits_apply.py [TOP]

Reads each crates/NAME/must-fail/*.edit below TOP (by default the repository that this
script stands in) as `rt must-fail` does, proves nothing, and prints each edit where an
old TEXT does not stand exactly once in its file, where a new TEXT is the old one, or
where nothing changes. The last line is `N apply, M do not`; the status is 1 if M is not 0."""

import pathlib
import sys

READ = ("file: ", "old: ", "new:", "#")


def fault(edit, crate):
    path, old, pairs, texts, was = "", None, 0, {}, {}
    for line in edit.read_text(encoding="utf-8").split("\n"):
        if line.strip() and not line.startswith(READ):
            return f"a line that is not read: {line}"
        if line.startswith("file: "):
            path = line[len("file: ") :].strip()
        elif line.startswith("old: "):
            if old is not None:
                return f"no new text for: {old}"
            old = line[len("old: ") :]
        elif line.startswith("new:"):
            new = line[len("new:") :].removeprefix(" ")
            if not path or not old:
                return f"no file or no old text for: {new}"
            if path not in texts:
                if not (crate / path).is_file():
                    return f"no file {path}"
                texts[path] = was[path] = (crate / path).read_text(encoding="utf-8")
            found = texts[path].count(old)
            if found != 1:
                return f"{found} times in {path}: {old}"
            if new == old:
                return f"the same text old and new: {old}"
            texts[path] = texts[path].replace(old, new)
            old, pairs = None, pairs + 1
    if old is not None:
        return f"no new text for: {old}"
    if not pairs:
        return "no pair of old and new"
    return None if texts != was else "it changes nothing"


def main():
    top = pathlib.Path(sys.argv[1] if len(sys.argv) > 1 else pathlib.Path(__file__).parent.parent)
    apply, fail = 0, 0
    for edit in sorted(top.glob("crates/*/must-fail/*.edit")):
        crate = edit.parent.parent
        said = fault(edit, crate)
        if said is None:
            apply += 1
        else:
            fail += 1
            print(f"{crate.name}/{edit.name}: {said}")
    print(f"{apply} apply, {fail} do not")
    return 1 if fail else 0


sys.exit(main())
