#!/usr/bin/env python3
"""Sends lines to a command that replies to each, times its replies, and writes them.

timed.py WAITING COMMAND.. < LINES > REPLIES

At most WAITING lines have no reply at any time. To standard error go lines a second, transfers that were accepted a
second, and the times in ms within which half of the replies came, and 99 of 100."""

import queue
import subprocess
import sys
import threading
import time


def main():
    waiting, command = int(sys.argv[1]), sys.argv[2:]
    # The first line goes alone, since it waits for the command's start, and isn't counted.
    places, sent, handed = threading.Semaphore(1), queue.SimpleQueue(), [0]
    process = subprocess.Popen(command, stdin=subprocess.PIPE, stdout=subprocess.PIPE, bufsize=0)

    def write():
        for line in sys.stdin.buffer:
            places.acquire()
            sent.put(time.monotonic())
            handed[0] += 1
            process.stdin.write(line)
        process.stdin.close()

    threading.Thread(target=write, daemon=True).start()
    waits, accepted, first, end = [], 0, None, None
    with open(process.stdout.fileno(), "rb", closefd=False) as replies:
        for reply in replies:
            began, end = sent.get(), time.monotonic()
            if first is None:
                first = end
                places.release(waiting)
            else:
                places.release()
                waits.append(end - began)
                accepted += b'"state":"accepted"' in reply
            sys.stdout.buffer.write(reply)
    if process.wait() or len(waits) + 1 != handed[0]:
        sys.exit(f"status {process.returncode}, and {len(waits) + 1} replies to {handed[0]} lines")
    waits.sort()
    half, most = (waits[len(waits) * part // 100] * 1000 for part in (50, 99))
    seconds = end - first
    print(f"{len(waits) / seconds:.0f} {accepted / seconds:.0f} {half:.1f} {most:.1f}", file=sys.stderr)


if __name__ == "__main__":
    main()
