#!/usr/bin/env python3
"""Plants the bugs of `tools/bugs`, one at a time, in a copy of the repository, and tells of each whether the proof of its crate
refuses it (and whether the first complaint stands in src/ or in a proof file), only a run refuses it, or it survives.

    tools/strength.py [--jobs N] [CRATE ...]

`tools/bugs/CRATE.txt` is a list of blocks. A block is a line `bug: NAME, WHAT IS WRONG` and the lines of a must-fail edit:
`file: PATH` and pairs of `old: TEXT` and `new: TEXT`, where each old text stands in that file exactly once. Other lines are read
past. What the proof lets through is tried on the tests of the crate and on the programs and tests above it, up to the first that
goes otherwise than with the sound code. A program without contracts is judged by what it prints alone.

Printed are all bugs that the proof does not refuse in src/, and a table with a row for each crate. The status is 1 where a bug
survives, or cannot be applied, compiled or tried.
"""
import argparse
import os
import re
import shutil
import subprocess
import sys
import tempfile
from pathlib import Path

TOP = Path(__file__).resolve().parent.parent
FOR_C = "zetampuy"
SRC, PROOF, RUN, NONE, BAD = "refused in src/", "refused in a proof file", "refused only by a run", "SURVIVES", "ERROR OF THE LIST"


def crates():
    """The crates with all that each stands on, bottom up."""
    lines = [it.partition(":") for it in (TOP / "crates.txt").read_text().splitlines() if ":" in it]
    return {name.split()[0]: below.split() for name, _, below in sorted(lines, key=lambda it: len(it[2].split()))}


def bugs(crate):
    """The bugs of a crate's list by name: what is wrong, and the lines of the edit."""
    found, path = {}, TOP / "tools/bugs" / f"{crate}.txt"
    if not path.exists():
        sys.exit(f"{crate} has no list {path}")
    for line in path.read_text().splitlines():
        if line.startswith("bug: "):
            name, _, wrong = line[5:].partition(", ")
            if name in found or not re.fullmatch(r"\w+", name) or not wrong:
                sys.exit(f"{crate}: `{line}` is no new name with what is wrong")
            found[name] = (wrong, edit := [])
        elif line.startswith(("file: ", "old: ", "new:")):
            edit.append(line)
    return found


def applied(folder, edit):
    """The texts of the files that an edit changes, or None where it cannot be applied."""
    texts, path, old = {}, None, None
    for line in edit:
        kind, _, text = line.partition(":")
        text = text[1:]
        if kind == "file":
            path = folder / text
            texts[path] = texts.get(path) or path.read_text()
        elif kind == "old":
            old = text
        elif texts[path].count(old) != 1:
            return None
        else:
            texts[path] = texts[path].replace(old, text)
    return texts


def has(folder, words):
    """Whether a word of some stands in the code of a crate."""
    return any(it in text.read_text() for text in (folder / "src").rglob("*.rt") for it in words)


def rt(words, folder, jobs, stdin=subprocess.DEVNULL):
    how = {"cwd": folder, "stdin": stdin, "stdout": subprocess.PIPE, "stderr": subprocess.PIPE}
    return subprocess.run(["rt", *words], env={**os.environ, "RT_JOBS": str(jobs)}, **how)


def by_proof(copy, crate, known, jobs):
    """What the proof says of each bug of a crate: how it is refused, and where first."""
    edits = copy / "crates" / crate / "must-fail"
    edits.mkdir()
    for name, (_, edit) in known.items():
        (edits / f"{name}.edit").write_text("\n".join(edit) + "\n")
    ran = rt(["must-fail", crate], copy, jobs)
    shutil.rmtree(edits)
    said = {}
    for line in (ran.stdout + ran.stderr).decode(errors="replace").splitlines():
        told = re.match(rf"rt: must-fail {crate}/(\w+)\.edit: (.*)", line)
        if not told:
            continue
        name, words = told.groups()
        at = re.search(r"(?:note: )?(?:\./)?((?:src|specs|proofs)/\S+?:\d+):\d+:", words)
        where = at[1] if at else ""
        if words.startswith("refused, as it must be"):
            said[name] = (SRC if where.startswith("src/") else PROOF if where else BAD, where or "refused for its form, at no place")
        elif words.startswith("NOT REFUSED"):
            said[name] = (NONE, "")
        else:
            said[name] = (BAD, words[:150])
    return {name: said.get(name, (BAD, "not tried")) for name in known}


def run(folder, jobs):
    """What a program prints, or its tests say, where that is otherwise than it should be; else None."""
    is_program = (folder / "stdout").exists()
    args = (folder / "args").read_text().splitlines() if (folder / "args").exists() else []
    with open(folder / "stdin" if (folder / "stdin").exists() else os.devnull, "rb") as stdin:
        ran = rt(["try", *(["--", *args] if args else [])] if is_program else ["try", "--test"], folder, jobs, stdin)
    told = ran.stderr.decode(errors="replace").strip().split("\n")
    if "run=none" in told[-1]:
        first = next((it for it in told if re.search(r"\berror\b", it)), told[-1])
        return BAD, f"{folder.name} is not run: {first[:150]}"
    status = int((folder / "status").read_text()) if (folder / "status").exists() else 0
    if ran.returncode == status and (not is_program or ran.stdout == (folder / "stdout").read_bytes()):
        return None
    return RUN, f"{folder.name} " + ("fails its tests" if not is_program else "stops" if "run=ended" not in told[-1] else "prints something else")


def called(copy):
    """What the programs in C and in Rust say of a bug of the static library."""
    ran = subprocess.run([copy / "tools/callers.sh"], cwd=copy, stdout=subprocess.PIPE, stderr=subprocess.STDOUT)
    return (RUN, "a program in C or in Rust says otherwise") if ran.returncode else (NONE, "")


def by_run(copy, crate, edit, every, jobs):
    """What the tests of a crate, and the programs and tests above it, say of a bug; of the static library, those who call it."""
    texts = applied(copy / "crates" / crate, edit)
    if not texts:
        return BAD, "cannot be applied"
    was = {path: path.read_text() for path in texts}
    try:
        for path, text in texts.items():
            path.write_text(text)
        for name in [crate, *(it for it, below in every.items() if crate in below)]:
            at = copy / "crates" / name
            said = run(at, jobs) if (at / "stdout").exists() or has(at, ["#[test]"]) else None
            if said:
                return said
        return called(copy) if crate == FOR_C else (NONE, "")
    finally:
        for path, text in was.items():
            path.write_text(text)


def main():
    words = argparse.ArgumentParser(description=__doc__, formatter_class=argparse.RawDescriptionHelpFormatter)
    words.add_argument("--jobs", type=int, default=1, help="how many bugs of a crate are tried side by side, 1 if left out")
    words.add_argument("crates", nargs="*", metavar="CRATE")
    asked = words.parse_args()
    every = crates()
    if lacking := [it for it in asked.crates if it not in every]:
        sys.exit(f"no such crate: {lacking[0]}")
    rows, failed = [], False
    with tempfile.TemporaryDirectory(prefix="strength-") as room:
        copy = Path(room)
        for name in ["crates.txt", "HANDLES"]:
            if (TOP / name).exists():
                shutil.copy(TOP / name, copy / name)
        for name in ["tools", "examples"]:
            shutil.copytree(TOP / name, copy / name)
        shutil.copytree(TOP / "crates", copy / "crates", ignore=shutil.ignore_patterns("out", "must-fail"))
        for crate in asked.crates or every:
            known, folder = bugs(crate), copy / "crates" / crate
            proved = has(folder, ["ensures", "ghost "])
            said = by_proof(copy, crate, known, asked.jobs) if proved else {name: (NONE, "") for name in known}
            for name, (wrong, edit) in known.items():
                if said[name][0] == NONE:
                    said[name] = by_run(copy, crate, edit, every, asked.jobs)
                if said[name][0] != SRC:
                    print(f"{crate}/{name} ({wrong}): {said[name][0]}: {said[name][1]}", flush=True)
            of = lambda *kinds: sum(it in kinds for it, _ in said.values())
            failed = failed or of(NONE, BAD) > 0
            rows.append(f"| `{crate}` | {len(known) - of(BAD)} | {of(SRC, PROOF)} | {of(SRC)} | {of(RUN)} | {of(NONE)} |")
            print(rows[-1], flush=True)
            shutil.rmtree(folder / "out", ignore_errors=True)
    print("\n| Crate | Tried | Refused by its proof | Of these first in `src/` | Refused only by a run | Survive |\n|---|---|---|---|---|---|")
    print("\n".join(rows))
    return 1 if failed else 0


if __name__ == "__main__":
    sys.exit(main())
