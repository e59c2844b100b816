#!/usr/bin/env python3
"""Respells three names that the kit's port.py takes for names of the newer form, so that it turns every file.

usage: python3 tools/before_port.py    at the top of a checkout in the older form, before port.py
"""

import re

PLACES = {
    "crates/grid/specs/Contracts.antt": {
        r"\bas name_of\b": "as nameOf",
        r"\bas name_back\b": "as nameBack",
        r"\bname_of\.(Asked|Learnt)\b": r"nameOf.\1",
        r"\bname_back\.(Asked|Learnt)\b": r"nameBack.\1",
    },
    "crates/stream/proofs/reading/gather/Proof.antt": {r"\bso_far": "soFar"},
}

for path, names in PLACES.items():
    with open(path, encoding="utf-8") as file:
        text = file.read()
    for old, new in names.items():
        text = re.sub(old, new, text)
    with open(path, "w", encoding="utf-8") as file:
        file.write(text)
