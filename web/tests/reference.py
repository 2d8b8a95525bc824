"""Borders of sets of cells once more, by another way than the page's, and the program's verdict on them."""

import json
import os
import subprocess
from collections import defaultdict
from pathlib import Path

from support import ROOT

STEPS = {(1, 0): "0", (0, 1): "1", (-1, 0): "2", (0, -1): "3"}
PROGRAMS = [ROOT / "host/target/release/robequarry", ROOT / "host/target/debug/robequarry"]


def border(cells):
    """Start and letters of the border, or None unless there is exactly one and it meets no corner twice.

    Every side between a cell and its outside is a step with the cell on its right; the steps have to make one closed walk.
    """
    leaves = defaultdict(list)
    for col, row in cells:
        for beside, corner, step in (
            ((col - 1, row), (col, row), (0, 1)),
            ((col, row + 1), (col, row + 1), (1, 0)),
            ((col + 1, row), (col + 1, row + 1), (0, -1)),
            ((col, row - 1), (col + 1, row), (-1, 0)),
        ):
            if beside not in cells:
                leaves[corner].append(step)
    if any(len(steps) > 1 for steps in leaves.values()):
        return None
    start = at = min(leaves)
    letters = []
    while not letters or at != start:
        (step,) = leaves[at]
        letters.append(STEPS[step])
        at = (at[0] + step[0], at[1] + step[1])
    return (start, "".join(letters)) if len(letters) == len(leaves) else None


def program():
    named = os.environ.get("ROBEQUARRY_PROGRAM")
    found = [Path(named)] if named else [path for path in PROGRAMS if path.is_file()]
    if not found:
        raise FileNotFoundError("the program is not built: `cargo build --offline --release --bin robequarry` in host/")
    return max(found, key=lambda path: path.stat().st_mtime)


def verdicts(outlines):
    """What the program says of outlines, by its standard input: number, anchor, edges, cell and witness of each."""
    lines = "".join(f"{start[0]} {start[1]} {letters}\n" for start, letters in outlines)
    ran = subprocess.run([program(), "check", "--format", "json", "-"], input=lines, capture_output=True, text=True, timeout=600)
    if ran.returncode > 1:
        raise RuntimeError(ran.stderr)
    said = [json.loads(line) for line in ran.stdout.splitlines()]
    return [line for line in said if line["type"] == "outline"]
