#!/usr/bin/env python3
"""How long an answer from a table takes, against one by the layouts of styles, of the same
document.

    bench/tables.py [--program PATH] [--kinds NAME,..] [--runs N]

Makes documents of 1,000 and 4,000 citations of each kind (those of bench.py that users have), and
has crates/test_calls answer each by layouts (`finish_with` over a layout writer) and by
`host_driver::drive`, over a table of what the layouts write. Reading, and filling the table, are
taken off: the time of an answer is a sixth of what seven answers take longer than one, the best of
--runs runs each. Prints both in milliseconds, their ratio, and by how much the time from the table
grows from 1,000 to 4,000. Build the program first: (cd crates/test_calls && rt run < stdin).
"""
import argparse
import json
import pathlib
import resource
import subprocess
import sys

ROOT = pathlib.Path(__file__).resolve().parent.parent
sys.path.insert(0, str(ROOT / "bench"))
import bench  # noqa: E402 (it stands beside this file)

SIZES = [1_000, 4_000]
KINDS = ["whole_author_date", "whole_numeric", "whole_notes"]
FEW, MANY = 1, 7
LINE = "{:<20} {:>7} {:>10} {:>10} {:>7} {:>7}"


def taken(program, way, times, document):
    """The processor time of a run that answers so many times, in seconds."""
    before = resource.getrusage(resource.RUSAGE_CHILDREN).ru_utime
    given = f"{way} {times}\n".encode() + document
    subprocess.run([program], input=given, stdout=subprocess.DEVNULL, stderr=subprocess.DEVNULL, check=True)
    return resource.getrusage(resource.RUSAGE_CHILDREN).ru_utime - before


def of_one(program, way, document, runs):
    """The time of one answer, in milliseconds."""
    few, many = (min(taken(program, way, times, document) for _ in range(runs)) for times in (FEW, MANY))
    return (many - few) / (MANY - FEW) * 1e3


def main():
    parser = argparse.ArgumentParser(description=__doc__.split("\n")[0])
    parser.add_argument("--program", default=str(ROOT / "crates/test_calls/out/test_calls"))
    parser.add_argument("--kinds", default=",".join(KINDS))
    parser.add_argument("--runs", type=int, default=5)
    asked = parser.parse_args()
    print(LINE.format("kind", "n", "layouts ms", "table ms", "ratio", "growth"))
    for name in asked.kinds.split(","):
        last = None
        for n in SIZES:
            document = json.dumps(bench.KINDS[name](n)).encode()
            layouts, table = (of_one(asked.program, way, document, asked.runs) for way in ("finish", "drive"))
            growth = f"{table / last:.1f}" if last else ""
            print(LINE.format(name, n, f"{layouts:.2f}", f"{table:.2f}", f"{table / layouts:.2f}", growth))
            last = table


if __name__ == "__main__":
    main()
