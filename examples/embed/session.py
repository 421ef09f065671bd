#!/usr/bin/env python3
"""Answers each line of standard input by one line, as `inst_main` does with the same words. The hub is in this process:
there is no other program and no pipe."""
import argparse
import sys

from inst import Hub

parser = argparse.ArgumentParser(description=__doc__)
parser.add_argument("task", choices=["run", "play"])
parser.add_argument("--participants", required=True)
for name in ["base", "ceiling", "limit", "margin", "ahead", "places", "fundings"]:
    parser.add_argument(f"--{name}", type=int, default=argparse.SUPPRESS)
words = vars(parser.parse_args())
task, codes = words.pop("task"), words.pop("participants").split(",")
with Hub(codes, is_play=task == "play", **words) as hub:
    for line in sys.stdin.buffer:
        reply, _ = hub.answer(line.removesuffix(b"\n"))
        sys.stdout.buffer.write(reply + b"\n")
