#!/usr/bin/env python3
"""Brings the repository's own names in specs/, proofs/ and clauses to today's spelling: words in snake case.

usage: tools/respell.py          at the top of the repository, once, after the kit's port.py

`startCall` becomes `start_call`, and a lemma such as `refused-alters-nothing` becomes `refused_alters_nothing`. Respelled are the
definitions, lemmas, fields and constructors that the repository's own files declare, wherever they stand in an .antt file, in a
`ghost use` or a clause of an .rt file, or in an edit of must-fail/. Functions of src/, strings, inputs and outputs keep their names, and
so do names of the library and those that Rattle makes. The names that would fall together are printed, and nothing is written then.
"""
import collections
import glob
import os
import re
import sys

CAMEL = re.compile(r"[a-z][a-z0-9]*[A-Z][A-Za-z0-9]*$")
SIGNATURE = re.compile(r"^\s*(?:(?:pub|abbrev|unfoldable)\s+)*([^\s(){}\[\],;.:«»]+)(?:\s+\{[^}:]*\})?\s+:\s")
PARTS = re.compile(r"([\s(){}\[\],;.:⌜⌝@\"`«»]+)")
FUNCTION_FILES = ("Proof.antt", "Answers.antt", "Invariants.antt")
# a name that Rattle may make: it is not looked for behind a dot in a function's own proof
MADE = re.compile(r"(in|if|then|else|loop|returns|after|ensures|goal|the)-|.*-(is|index|end|requires|init|preserved|smaller)$")
PAGES = ("README.md", "docs/*.md", "docs/changes/*.md", "crates/*/README.md", "crates/*/must-fail/*.md", "bench/README.md", "oracle/*.md")
# names of which the plain respelling would fall together with another name
OTHERWISE = {
    "under-way": "is_under_way",
    "ownIn": "own_place_in",
    "rowFits": "row_in_range",
    "wordsLeft": "rest_words",
    "trx-ctrl-1": "trx_ctrl_1_is",
    "trx-ctrl-2": "trx_ctrl_2_is",
    "irq-mask": "irq_mask_is",
    "xah-ctrl-1": "xah_ctrl_1_is",
    "csma-seed-0": "csma_seed_0_is",
    "csma-seed-1": "csma_seed_1_is",
    "trx-rpc": "trx_rpc_is",
}
# a constructor of specs/ may have the name of a field of src/, which always stands behind a dot
FIELDS = {
    "config_pending", "crc_valid", "interrupt_handling", "interrupt_pending", "power_client_pending", "radio_on", "sleep_pending",
    "wake_pending", "power_at", "cfg_client", "power_client", "rx_client", "tx_client",
}


def of_function(path):
    """Whether a file of proofs/ is in a function's own folder."""
    return "/proofs/" in path and os.path.basename(path) in FUNCTION_FILES and "/" in path.split("/proofs/")[1]


def snake(name):
    name = re.sub(r"(?<=[a-z0-9])([A-Z])", lambda m: "_" + m.group(1).lower(), name) if CAMEL.match(name) else name
    return name.replace("-", "_")


def texts():
    for pattern in (*PAGES, "crates/*/specs/**/*.antt", "crates/*/proofs/**/*.antt", "crates/*/src/**/*.rt", "crates/*/must-fail/*.edit"):
        yield from sorted(glob.glob(pattern, recursive=True))


def declared():
    """The names to respell: each with a capital inside, and each with a dash that a file of definitions or lemmas declares."""
    names = set()
    for path in texts():
        if not path.endswith(".antt"):
            continue
        with open(path, encoding="utf-8") as f:
            for line in f:
                if not of_function(path):
                    m = SIGNATURE.match(line)
                    if m and "-" in m.group(1).strip("-"):
                        names.add(m.group(1))
                code = line.split("--")[0]
                names.update(w for w in PARTS.split(code) if CAMEL.match(w) and not w.startswith("0x"))
    return names


def own_words():
    """Every name that a signature of specs/ or of a file of lemmas gives."""
    words = set()
    for path in texts():
        if path.endswith(".antt") and not of_function(path):
            with open(path, encoding="utf-8") as f:
                words.update(m.group(1) for m in map(SIGNATURE.match, f) if m)
    return words


def new_names():
    """Old names with their new ones. A lemma that would have a definition's name gets `_lem`, as the library's lemmas do."""
    old = declared()
    taken = {snake(n) if CAMEL.match(n) else n for n in own_words() if "-" not in n}
    names = {}
    for n in old:
        names[n] = OTHERWISE.get(n) or snake(n) + ("_lem" if "-" in n and snake(n) in taken else "")
    return names


def function_of(new, old, path):
    """Whether one of the two is a function of src/, which a definition may share its name with: no file of specs/ calls one."""
    here = path.split("/proofs/")[0].split("/specs/")[0]
    return new in old and any(f"fn {new}(" in open(p, encoding="utf-8").read() for p in glob.glob(here + "/src/**/*.rt", recursive=True))


def turned(line, path, names):
    """A line with its names respelled. In a comment only what has a capital inside, or stands between backquotes, is a name."""
    cut = line.find("--") if path.endswith(".antt") else line.find("//") if path.endswith(".rt") else -1
    if path.endswith(".md") or path.endswith(".edit") and line.startswith("#"):
        cut = 0
    code, comment = (line, "") if cut < 0 else (line[:cut], line[cut:])
    made = of_function(path)
    out = []
    words = PARTS.split(code)
    strings = 0
    for i, w in enumerate(words):
        if i % 2:
            strings += w.count('"')
            out.append(w)
            continue
        before = words[i - 1] if i else ""
        if strings % 2 or w not in names or (made and before.endswith(".") and MADE.match(w)):
            out.append(w)
        else:
            out.append(names[w])
    quoted = False
    words = PARTS.split(comment)
    for i, w in enumerate(words):
        if i % 2:
            if w.count("`") % 2:
                quoted = not quoted
            out.append(w)
        elif w in names and (quoted or CAMEL.match(w)):
            out.append(names[w])
        else:
            out.append(w)
    return "".join(out)


def main():
    names = new_names()
    together = collections.defaultdict(set)
    after = {}
    for path in texts():
        with open(path, encoding="utf-8") as f:
            text = f.read()
        if path.endswith((".antt", ".rt")):
            found = collections.defaultdict(set)
            mark = "--" if path.endswith(".antt") else "//"
            for line in text.splitlines():
                for w in PARTS.split(line.split(mark)[0])[::2]:
                    if w:
                        found[names.get(w, w)].add(w)
            for new, old in found.items():
                if len(old) > 1 and path.endswith(".antt") and new not in FIELDS and not function_of(new, old, path):
                    together[new, tuple(sorted(old))].add(path)
        after[path] = "".join(turned(line, path, names) for line in text.splitlines(keepends=True))
    if together and "--force" not in sys.argv:
        for (new, old), paths in sorted(together.items()):
            print(f"{' and '.join(old)} would both be {new}: {len(paths)} files, {sorted(paths)[:4]}")
        return 1
    for path, text in after.items():
        with open(path, "w", encoding="utf-8") as f:
            f.write(text)
    print(f"{len(names)} names respelled")
    return 0


if __name__ == "__main__":
    raise SystemExit(main())
