#!/usr/bin/env python3
"""Does docs/DEFINITIONS.md name each public definition of specs/, in its crate's part and under its file, and no other? Crates
that have no part there are passed over.

    python3 tools/definitions.py

It prints what is missing and what is not there any more; status 1 where anything is.
"""

import pathlib
import re
import sys

ROOT = pathlib.Path(__file__).resolve().parent.parent
HEAD = re.compile(r"^\s*(?:abbrev pub|unfoldable pub|pub record)\s+([^\s:]+)", re.MULTILINE)
# files of lemmas, whose few definitions no contract cites
LEMMAS = {("motion", "Moments"), ("motion", "Integers"), ("sources", "Soundness")}


def defined():
    """Each public definition, as its crate, file and name."""
    found = set()
    for path in ROOT.glob("crates/*/specs/*.antt"):
        crate, file = path.parts[-3], path.stem
        if not file.endswith("Lemmas") and (crate, file) not in LEMMAS:
            found |= {(crate, file, name) for name in HEAD.findall(path.read_text())}
    return found


def listed():
    """The page's parts by crate: the names in the first column with their files, and every name there is."""
    rows, names, crate = set(), {}, ""
    for line in (ROOT / "docs/DEFINITIONS.md").read_text().splitlines():
        if line.startswith("## "):
            crate = line[3:].strip()
        names.setdefault(crate, set()).update(re.findall(r"`([^`]+)`", line))
        cells = [cell.strip() for cell in line.split(" | ")]
        if len(cells) == 4 and cells[0].startswith("| `") and not cells[1].startswith("src/"):
            files = cells[1].split(", ")
            rows |= {(crate, tuple(files), name) for name in re.findall(r"`([^`]+)`", cells[0])}
    return rows, names


def main():
    have = defined()
    rows, names = listed()
    missing = [d for d in sorted(have) if d[0] in names and d[2] not in names[d[0]]]
    gone = [r for r in sorted(rows) if not any((r[0], file, r[2]) in have for file in r[1])]
    for crate, file, name in missing:
        print(f"missing: {name} of crates/{crate}/specs/{file}.antt")
    for crate, files, name in gone:
        print(f"not there: {name} of crates/{crate}/specs/{', '.join(files)}")
    print(f"{len(have)} definitions, {len(missing)} missing, {len(gone)} not there")
    return 1 if missing or gone else 0


if __name__ == "__main__":
    sys.exit(main())
