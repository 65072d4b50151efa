#!/usr/bin/env python3
"""Respells this repository's own definitions and lemmas after port.py: words in snake case, facts in camel case.

usage: python3 tools/respell_names.py        once, at the top of the repository, after port.py; a second run spoils names

A name such as walOf becomes wal_of, each part between dashes by itself. Functions of src/, exported names, strings and
file names have no such names, and so keep theirs.
"""

import os
import re

# Where the plain spelling is the name of a field or a parameter, which a clause would then take for the definition; a fact; and what is
# left of the kit's own getD, in a name.
OTHERWISE = {
    "clockHighWater": "clock_high_water_of",
    "commitTs": "commit_ts_of",
    "frameCount": "frame_count_of",
    "getD": "get_or",
    "goodEnd": "good_end_of",
    "hasRoomFor": "HasRoomFor",
    "lastCommit": "last_commit_of",
    "mainArea": "main_area_size",
    "mainHeader": "main_header_of",
}

# Lemmas whose dash port.py made an underscore, so that they would fall together with a definition's new name: their old names.
LEMMAS = {
    "wal/proofs/Opening.antt": ["area_of"],
    "mvcc/proofs/": ["has_room"],
    "pager/proofs/Steps.antt": ["no_step"],
    "other_calls/proofs/Others.antt": ["no_step"],
    "pager_open/proofs/": ["found_as", "opened_with"],
    "pager_state/proofs/": ["found_in"],
    "history/proofs/": ["put_front"],
    "pager_stage/proofs/Appending.antt": ["refused_as"],
}

CAMEL = re.compile(r"(?<![A-Za-z0-9_'])[a-z][a-z0-9_]*[A-Z][A-Za-z0-9_]*")


def snake(word):
    if word in OTHERWISE:
        return OTHERWISE[word]
    return re.sub(r"[A-Z]", lambda m: "_" + m.group().lower(), word)


def respelled(path, text):
    for place, names in LEMMAS.items():
        if path.startswith(place):
            for name in names:
                text = re.sub(rf"(?<![\w.'-]){name}(?![\w'-])", name.replace("_", "-"), text)
    return CAMEL.sub(lambda m: snake(m.group()), text)


def main():
    turned = 0
    for folder, folders, files in os.walk("crates"):
        folders[:] = sorted(d for d in folders if d != "out")
        for name in sorted(files):
            if not name.endswith((".rt", ".antt")):
                continue
            place = os.path.join(folder, name)
            with open(place, encoding="utf-8") as f:
                old = f.read()
            new = respelled(os.path.relpath(place, "crates"), old)
            if new != old:
                turned += 1
                with open(place, "w", encoding="utf-8") as f:
                    f.write(new)
    print(f"{turned} files respelled")


main()
