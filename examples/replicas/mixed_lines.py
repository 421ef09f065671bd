#!/usr/bin/env python3
"""Writes COUNT lines for a hub of so many PARTICIPANTS, without readings of the clock, or with --codes their codes.

mixed_lines.py COUNT PARTICIPANTS [SEED]
mixed_lines.py --codes PARTICIPANTS"""

import json
import random
import sys

# What is no command, or none that a hub takes.
WRONG = ["", "{", "[]", " {}", "{\"cmd\":\"positron\"}", "x" * 5000, "{\"pad\":\"" + " " * 5000 + "\"}"]


def codes(count):
    return [f"BANK{chr(65 + number // 26)}{chr(65 + number % 26)}{number:02}" for number in range(count)]


def commands(count, banks, draw):
    for number, bank in enumerate(banks):
        yield {"cmd": "fund", "who": bank, "ref": "F1", "cents": 10_000_000}
    pending = []
    while True:
        who, to = draw.sample(banks, 2)
        number += 1
        kind = draw.randrange(12)
        if kind < 4:
            pending.append({"from": who, "id": f"T{number}", "who": to})
            yield {"cmd": "submit", "who": who, "to": to, "id": f"T{number}", "cents": draw.randrange(1, 5000)}
        elif kind < 8 and pending:
            transfer = pending.pop(0)
            if draw.randrange(10):
                yield {"cmd": "confirm", **transfer}
            else:
                yield {"cmd": "reject", "reason": "AC04", **transfer}
        elif kind == 8:
            yield {"cmd": "fetch", "who": who, "max": 20}
        elif kind == 9:
            yield {"cmd": "position", "who": who}
        elif kind == 10:
            yield {"cmd": "statement", "who": who, "skip": draw.randrange(50), "count": 5}
        elif kind == 11:
            which = draw.randrange(4)
            if which == 0:
                yield draw.choice(WRONG)
            elif which == 1:
                yield {"cmd": "defund", "who": who, "ref": f"D{number}", "cents": draw.randrange(1, 2000)}
            elif pending and which == 2:
                yield {"cmd": "investigate", "who": pending[-1]["from"], "id": pending[-1]["id"]}
            elif pending:
                pending.pop()  # nobody answers it


def main():
    if sys.argv[1] == "--codes":
        print(",".join(codes(int(sys.argv[2]))))
        return
    count, banks = int(sys.argv[1]), codes(int(sys.argv[2]))
    lines = commands(count, banks, random.Random(int(sys.argv[3]) if len(sys.argv) > 3 else 1))
    for _ in range(count):
        line = next(lines)
        print(line if isinstance(line, str) else json.dumps(line, separators=(",", ":"), sort_keys=True))


if __name__ == "__main__":
    main()
