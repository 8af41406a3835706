#!/usr/bin/env python3
"""Turns the repository's own names in definitions, lemmas and clauses from camel case to snake case.

usage: tools/port-names.py      at the top, once, right after the toolchain's port.py

A name is turned where it begins with a small letter and a part of it between dashes has a capital inside, as xorBlock-comm,
which becomes xor_block-comm. `getD`, the library's old name for the entry of a list, becomes get_or in our names too. Types,
constructors and functions of src/ keep their names. Five lemmas that would fall together with a definition get their dash
back first (KEPT).
"""

import os
import re
import sys

# lemmas that port.py wrote with an underscore, and which a definition's new name would meet
KEPT = {
    "xor_block": ("xor-block", ["mem/proofs/Laws", "mro_converting/proofs/Judged", "mro_converting/proofs/Streams", "words/proofs/Blocks", "masks/proofs/Laws", "back_steps/proofs/Laws"]),
    "made_at": ("made-at", ["opp_run/proofs/FromRun"]),
    "shut_at": ("shut-at", ["demands/proofs/TrueReason"]),
    "kind_fits": ("kind-fits", ["cells/proofs/Faults"]),
    "free_walk": ("free-walk", ["cells/proofs/Faults"]),
}
WORD = re.compile(r"b?'.'|(?<![\w'-])[A-Za-z_][\w'-]*")


def snake(part):
    if not part[:1].islower() or not re.search("[A-Z]", part):
        return part
    part = part.replace("getD", "get_or")
    return re.sub(r"(?<=[a-z0-9])(?=[A-Z])|(?<=[A-Z])(?=[A-Z][a-z])", "_", part).lower()


def turned(word):
    if word.endswith("'") and word[-3:-2] == "'":  # a byte or a character of the code
        return word
    return "-".join(snake(p) for p in word.split("-"))


def main():
    root = os.path.join(os.path.dirname(os.path.realpath(__file__)), "..", "crates")
    for folder, dirs, files in os.walk(root):
        dirs[:] = sorted(d for d in dirs if d != "out")
        for name in sorted(files):
            if not name.endswith((".rt", ".antt")):
                continue
            path = os.path.join(folder, name)
            with open(path, encoding="utf-8") as f:
                old = f.read()
            new = old
            for word, (kept, where) in KEPT.items():
                if os.path.relpath(path, root)[: -len(".antt")] in where:
                    new = re.sub(rf"(?<![\w'.-]){word}(?![\w'-])", kept, new)
            new = WORD.sub(lambda m: turned(m.group(0)), new)
            if new != old:
                with open(path, "w", encoding="utf-8") as f:
                    f.write(new)


if __name__ == "__main__":
    sys.exit(main())
