#!/usr/bin/env python3
"""Writes what the streams have, once nothing comes any more: to FOLDER/lines the lines that the hubs were fed, and to
FOLDER/NAME.replies the replies of each replica, in the order of their lines.

compare.py NODES FOLDER

It ends with status 1 where a replica gave the same lines two different replies."""

import pathlib
import sys

from adapter import REPLIES, read, read_lines, replies_of

PAUSE = 3  # seconds


def main():
    nodes, folder = sys.argv[1].split(","), pathlib.Path(sys.argv[2])
    messages = [lines for _, _, _, lines in read_lines(nodes, 0, {}, PAUSE)]
    lines = [line for message in messages for line in message]
    (folder / "lines").write_bytes(b"".join(line + b"\n" for line in lines))
    replies = {}
    for _, properties, body in read(nodes, REPLIES, 0, PAUSE):
        for at, name, given in replies_of(body):
            if replies.setdefault(properties.app_id, {}).setdefault(at, given) != given:
                sys.exit(f"{properties.app_id} gave the lines {name} two replies")
    for replica, given in replies.items():
        (folder / f"{replica}.replies").write_bytes(b"".join(given[at] for at in sorted(given)))
    print(f"the streams have {len(lines)} lines in {len(messages)} messages, replies of {', '.join(sorted(replies))}")


if __name__ == "__main__":
    main()
