#!/usr/bin/env python3
"""Brings lines to the replicas of a hub by a stream of RabbitMQ, and their replies back by another one; see README.md.

adapter.py ask HOST:PORT,HOST:PORT,.. [MOST [as-is]] < LINES > REPLIES
adapter.py replica HOST:PORT,HOST:PORT,.. NAME FOLDER PROGRAM WORDS.."""

import json
import os
import queue
import re
import sys
import threading
import time
from subprocess import PIPE, Popen, run

import pika

LINES, REPLIES = "hub.lines", "hub.replies"
FAILURES = (OSError, pika.exceptions.AMQPError, pika.adapters.utils.connection_workflow.AMQPConnectorException)


def channel_of(nodes):
    """A channel to the node that was asked longest ago."""
    nodes.append(nodes.pop(0))
    channel = pika.BlockingConnection(pika.URLParameters(f"amqp://{nodes[-1]}/?heartbeat=10")).channel()
    for stream in LINES, REPLIES:
        channel.queue_declare(stream, durable=True, arguments={"x-queue-type": "stream"})
    channel.basic_qos(prefetch_count=100)
    channel.confirm_delivery()
    return channel


def read(nodes, stream, offset, pause=None):
    """The messages of a stream from an offset on, up to the first pause; where a node fails, from the next one."""
    nodes = [*nodes]
    while True:
        try:
            channel, start = channel_of(nodes), {"x-stream-offset": offset}
            for method, properties, body in channel.consume(stream, arguments=start, inactivity_timeout=pause):
                if method is None:
                    return
                at = properties.headers["x-stream-offset"]
                if offset == "last" or at >= offset:
                    offset = at + 1
                    yield at, properties, body
                channel.basic_ack(method.delivery_tag)
        except FAILURES:
            time.sleep(0.1)


def send(nodes, channels, stream, body, **properties):
    """Sends a message until it is confirmed: then a majority of the nodes has it."""
    while True:
        try:
            channels[:] = channels or [channel_of(nodes)]
            return channels[0].basic_publish("", stream, body, pika.BasicProperties(**properties))
        except FAILURES:
            channels.clear()
            time.sleep(0.1)


def read_lines(nodes, offset, taken, pause=None):
    """The messages of lines, the same for all hubs. One whose confirm was lost was sent again, and is taken once."""
    for at, properties, body in read(nodes, LINES, offset, pause):
        asker, _, number = (properties.message_id or "").rpartition(":")
        if asker.isalnum() and number.isdecimal() and int(number) > taken.get(asker, 0):
            taken = {**taken, asker: int(number)}
            yield at, properties.message_id, taken, body.removesuffix(b"\n").split(b"\n")


def replies_of(body):
    """What a message of replies answers: the offset and the name of each message of lines, with the replies to it."""
    rows = iter(body.split(b"\n")[:-1])
    for row in rows:
        count, at, name = row.decode().split()
        yield int(at), name, b"".join(next(rows) + b"\n" for _ in range(int(count)))


def stamped(line, reading):
    try:
        command = json.loads(line)
        stamp = {"stamp": reading} if command["cmd"] == "submit" else {}
        return json.dumps({**stamp, **command, "at": reading}, separators=(",", ":"), sort_keys=True).encode()
    except (ValueError, TypeError, KeyError, RecursionError):
        return line


def ask(nodes, most="1", as_is=None):
    asker, number, channels, known, rest = os.urandom(16).hex(), 0, [], {}, b""
    # The clock goes on from the last reading that was sent, whoever sent it.
    readings = [properties.headers.get("reading", 0) for _, properties, _ in read(nodes, LINES, "last", 1)]
    before = max((at for at, _, _ in read(nodes, REPLIES, "last", 1)), default=-1)
    answers = (answer for _, _, body in read(nodes, REPLIES, before + 1) for answer in replies_of(body))
    while chunk := os.read(0, 65536):
        *lines, rest = (rest + chunk).split(b"\n")
        for number, first in enumerate(range(0, len(lines), int(most)), number + 1):
            readings = [max([*readings, time.time_ns() // 1_000_000])]
            some = lines[first : first + int(most)]
            body = b"".join((line if as_is else stamped(line, readings[0])) + b"\n" for line in some)
            name = f"{asker}:{number}"
            send(nodes, channels, LINES, body, message_id=name, headers={} if as_is else {"reading": readings[0]})
            while name not in known:
                _, answered, given = next(answers)
                if answered.startswith(asker) and known.setdefault(answered, given) != given:
                    sys.exit(f"{answered} has two replies: {known[answered]} and {given}")
            known.pop(f"{asker}:{number - 1000}", None)
            print(known[name].decode(), end="", flush=True)


def replica(nodes, name, folder, *words):
    log, path, fed = f"{folder}/hub.log", f"{folder}/place", queue.Queue(16)
    # Up to where replies were sent: how many lines, the last message's offset, and the last number of each asker.
    place = json.load(open(path)) if os.path.exists(path) else {"lines": 0, "offset": -1, "taken": {}}
    told = run([words[0], "log", log], capture_output=True, text=True)
    if told.returncode and "fault 21 NoLog" not in told.stderr:
        sys.exit(told.stderr.strip())
    found = re.search(r"^lines (\d+)$", told.stdout, re.M)
    had = (int(found[1]) if found else 0) - place["lines"]
    hub = Popen([*words, "--log", log, "--told", str(place["lines"])], stdin=PIPE, stdout=PIPE)

    def answer(lines, channels):
        while True:
            rows = []
            # What was fed meanwhile is answered by one message.
            for at, message, taken, count in [fed.get()] + [fed.get() for _ in range(fed.qsize())]:
                given = b"".join(hub.stdout.readline() for _ in range(count))
                if given.count(b"\n") < count:
                    return
                rows.append(b"%d %d %s\n%s" % (count, at, message.encode(), given))
                lines += count
            send([*nodes], channels, REPLIES, b"".join(rows), app_id=name)
            with open(path + ".new", "w") as file:
                json.dump({"lines": lines, "offset": at, "taken": taken}, file)
            os.replace(path + ".new", path)

    threading.excepthook = lambda failed: (sys.excepthook(*failed[:3]), hub.kill())
    threading.Thread(target=lambda: os._exit(hub.wait() or 1), daemon=True).start()
    threading.Thread(target=answer, args=[place["lines"], []], daemon=True).start()
    for at, message, taken, lines in read_lines(nodes, place["offset"] + 1, place["taken"]):
        fed.put((at, message, taken, len(lines)))
        try:
            # What the log has isn't fed again.
            hub.stdin.write(b"".join(line + b"\n" for line in lines[max(had, 0) :]))
            hub.stdin.flush()
        except BrokenPipeError:
            hub.wait()
        had -= len(lines)


if __name__ == "__main__":
    {"ask": ask, "replica": replica}[sys.argv[1]](sys.argv[2].split(","), *sys.argv[3:])
