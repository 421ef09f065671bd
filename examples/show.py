#!/usr/bin/env python3
"""Prints reply lines for a person, with amounts in euro: bin/inst_main run .. < lines | examples/show.py"""

import json
import sys

KINDS = {"FND": "funded", "DFD": "defunded", "IN": "received", "OUT": "paid"}


def euros(cents):
    return f"{cents // 100:,}.{cents % 100:02}"


def statement(lines):
    """Prints a table of statement lines, by their columns (docs/formats.md)."""
    yield f"{'no.':>6}  {'':8}  {'other':11}  {'identifier or reference':35}  {'euro':>14}  {'position':>16}"
    for line in lines:
        number, kind, other, name = line[:6], line[7:10].strip(), line[11:22], line[23:58]
        cents, position = int(line[59:70]), int(line[71:91])
        yield f"{number}  {KINDS[kind]:8}  {other}  {name}  {euros(cents):>14}  {euros(position):>16}"


def inbox(entries):
    if not entries:
        yield "nothing came"
    for entry in entries:
        yield f"{entry['from']} sends {euros(entry['cents'])} as {entry['id']}, to be answered before {entry['deadline']}"


def position(reply):
    yield f"position {euros(reply['position'])}, reserved {euros(reply['reserved'])}, available {euros(reply['available'])}"


def state(reply):
    reason = f", {reply['reason']}" if "reason" in reply else ""
    yield f"{reply['id']} of {reply['from']} is {reply['state'].replace('_', ' ')}{reason}"


SHOWN = {
    "done": lambda reply: [f"{reply['ref']} is done"],
    "taken": lambda reply: [f"{reply['id']} is taken, to be answered before {reply['deadline']}"],
    "refused": lambda reply: [f"refused: {reply['fault']} ({reply['number']})"],
    "step": lambda reply: ["something new" if reply["new"] else "nothing new"],
    "state": state,
    "inbox": lambda reply: inbox(reply["entries"]),
    "position": position,
    "statement": lambda reply: statement(reply["lines"]),
}


def main():
    for line in sys.stdin:
        reply = json.loads(line)
        for row in SHOWN[reply["reply"]](reply):
            print(row.rstrip())


if __name__ == "__main__":
    main()
