#!/usr/bin/env python3
"""Brings the definitions, fields and lemmas of specs/ and proofs/ to snake case, wherever they are named.

usage: python3 tools/respell.py        once, at the top, on what port.py left

A dash stays where it joins two functions' names, as in length-put; functions of src/ keep their names."""
import os
import re
import sys

DECLARED = re.compile(r"^\s*(?:abbrev |unfoldable |pub )*([^\s:(){}=.,;λ]+)\s*:(?!:)\s*(.*)")
# what a dash joins to the name of another function
JOINED = {"length", "mul", "neg", "sum", "take", "run", "size", "nth"}
JOINED_TO = {"answers", "begun", "profile", "put", "setpoints", "slice", "values", "difference", "mul", "neg", "sum", "set", "append", "placed", "getD"}
IS_FIELD = re.compile(r"-is$")
# names that would fall together with another name of the repository
APART = {
    "are-sound": "are_sound_lem",
    "atEnd": "at_end_of",
    "atWork": "at_work_of",
    "bendCap": "bend_cap_of",
    "boundIn": "bound_in_of",
    "clashIn": "clash_in_of",
    "class-cap": "class_cap_fits",
    "class-floor": "class_floor_fits",
    "classSheet": "class_sheet_of",
    "classStep": "class_step_of",
    "clause-cap": "clause_cap_lem",
    "clauseOffset": "clause_offset_of",
    "frameSize": "frame_size_of",
    "gapBefore": "gap_before_of",
    "headerBytes": "header_bytes_of",
    "is-sound": "is_sound_lem",
    "no-sample": "no_sample_lem",
    "noSample": "no_sample_of",
    "of-bits": "of_bits_lem",
    "of-fields": "of_fields_lem",
    "onLeft": "on_left_of",
    "onRight": "on_right_of",
    "outcomeOf": "outcome_from",
    "ownPair": "own_pair_of",
    "recordAt": "record_at_of",
    "roomAbove": "room_above_of",
    "roomBelow": "room_below_of",
    "row-asked": "row_asked_lem",
    "row-slice": "row_slice_lem",
    "rowPlace": "row_place_of",
    "sample-asked": "sample_asked_lem",
    "sample-read": "sample_read_lem",
    "sampleAt": "sample_at_of",
    "setpointBytes": "setpoint_bytes_of",
    "sound-row": "sound_row_lem",
    "speed-cap": "speed_cap_fits",
    "speed-floor": "speed_floor_fits",
    "speedLimit": "speed_limit_number",
    "speedSheet": "speed_sheet_of",
    "speedStep": "speed_step_of",
    "torqueRow": "torque_row_of",
}


def files(top, endings):
    for root, dirs, names in os.walk(os.path.join(top, "crates")):
        dirs[:] = sorted(d for d in dirs if d != "out")
        for name in sorted(names):
            if name.endswith(endings):
                yield os.path.join(root, name)


def snake(name):
    if name in APART:
        return APART[name]
    parts = name.split("-")
    if len(parts) == 2 and parts[0] in JOINED and parts[1] in JOINED_TO:
        return name.replace("getD", "slice_index_or")
    name = re.sub(r"(?<=[a-z0-9])([A-Z])", lambda m: "_" + m.group(1).lower(), name)
    return name.replace("-", "_")


def declared(top):
    names = set()
    for path in files(top, ".antt"):
        with open(path, encoding="utf-8") as f:
            for line in f:
                m = DECLARED.match(line)
                if m and not m.group(2).startswith(("goal.", "given.")):
                    names.add(m.group(1))
    return names


def table(top):
    turned = {}
    for name in declared(top):
        if re.fullmatch(r"[a-z][A-Za-z0-9_'\-]*", name) and snake(name) != name:
            turned[name] = snake(name)
    return turned


def main():
    top = sys.argv[1] if len(sys.argv) > 1 else "."
    turned = table(top)
    token = re.compile(r"(?<![\w'\-])(\.?)(" + "|".join(sorted(map(re.escape, turned), key=len, reverse=True)) + r")(?![\w'\-])")
    text = {p: open(p, encoding="utf-8").read() for p in files(top, (".antt", ".rt", ".edit"))}
    words = set()
    for t in text.values():
        words |= set(re.findall(r"[\w'\-]+", t))
    for old, new in sorted(turned.items()):
        if new in words or list(turned.values()).count(new) > 1:
            print(f"falls together: {old} -> {new}", [p for p in text if re.search(r"(?<![\w'\-])" + re.escape(new) + r"(?![\w'\-])", text[p])][:6])
    fields = set()
    for p, t in text.items():
        for m in token.finditer(t):
            if m.group(1) and IS_FIELD.search(m.group(2)):
                fields.add((p, m.group(0)))
    for f in sorted(fields):
        print("a field that may be the check's own:", *f)
    if "--write" in sys.argv:
        for p, t in text.items():
            new = token.sub(lambda m: m.group(1) + turned[m.group(2)], t)
            if new != t:
                with open(p, "w", encoding="utf-8") as f:
                    f.write(new)
    print(len(turned), "names")


main()
