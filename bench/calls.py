#!/usr/bin/env python3
"""How long one call of the library takes, against starting the program for the same document.

    bench/calls.py [--program PATH] [--runs N]

Makes documents of 1, 10 and 1,000 citations, author-date as users have them (that of bench.py), and
prints of each the best time of
--runs calls of gamhilon_render_text and of gamhilon_render_json, each in a buffer that fits, and of
--runs starts of cite_run. Build both first: embed/build.py, and (cd crates/cite_run && rt run <
stdin).
"""
import argparse
import json
import os
import pathlib
import subprocess
import sys
import time

ROOT = pathlib.Path(__file__).resolve().parent.parent
sys.path[:0] = [str(ROOT / "bench"), str(ROOT / "embed" / "python" / "src")]
SIZES = [1, 10, 1_000]


def best(call, runs):
    """The least time of some calls, in microseconds."""
    times = []
    for _ in range(runs):
        began = time.perf_counter()
        call()
        times.append(time.perf_counter() - began)
    return min(times) * 1e6


def start(program, given):
    subprocess.run([program], input=given, stdout=subprocess.DEVNULL, check=True)


def main():
    import bench
    from gamhilon._library import library

    words = argparse.ArgumentParser()
    words.add_argument("--program", default=str(ROOT / "crates/cite_run/out/cite_run"))
    words.add_argument("--runs", type=int, default=200)
    words = words.parse_args()
    calls, has_program = library(), os.path.exists(words.program)
    print(f"{'citations':>9} {'bytes':>9} {'text, us':>9} {'JSON, us':>9} {'cite_run, us':>12}")
    for size in SIZES:
        given = json.dumps(bench.whole_author_date(size)).encode()
        runs = max(words.runs // max(size // 10, 1), 5)
        text_length, json_length = len(calls.print_document(given)), len(calls.print_json(given))
        text = best(lambda: calls.print_document(given, text_length), runs)
        tree = best(lambda: calls.print_json(given, json_length), runs)
        program = f"{best(lambda: start(words.program, given), runs):.0f}" if has_program else "not built"
        print(f"{size:>9} {len(given):>9} {text:>9.0f} {tree:>9.0f} {program:>12}")


if __name__ == "__main__":
    main()
