#!/usr/bin/env python3
"""A bank's side of a hub over pipes: sends each line after the reply to the one before was received."""
import json
import pathlib
import subprocess
import sys

PROGRAM = pathlib.Path(__file__).resolve().parent.parent / "bin" / "inst_main"
subprocess.run([PROGRAM, "--help"], check=True, stdout=subprocess.DEVNULL)  # builds first where that is needed
hub = subprocess.Popen(
    [PROGRAM, "run", "--participants", "AAAADEFF,BBBBFRPP"],
    stdin=subprocess.PIPE,
    stdout=subprocess.PIPE,
    text=True,
)


def ask(**command):
    """Sends a command and returns its reply."""
    line = json.dumps(command, separators=(",", ":"), sort_keys=True)
    hub.stdin.write(line + "\n")
    hub.stdin.flush()
    reply = hub.stdout.readline()
    print(f"> {line}\n< {reply}", end="")
    return json.loads(reply)


ask(who="AAAADEFF", at=0, cmd="fund", ref="F1", cents=50000)
cents, at = 60000, 1000
while True:
    reply = ask(who="AAAADEFF", at=at, cmd="submit", id="T1", to="BBBBFRPP", cents=cents, stamp=at)
    if reply["reply"] == "taken":
        break
    if reply["fault"] != "Shortage":
        sys.exit(1)
    cents, at = cents // 2, at + 10
ask(who="BBBBFRPP", at=1500, cmd="confirm", id="T1", **{"from": "AAAADEFF"})
ask(who="AAAADEFF", at=1600, cmd="position")

# The end of the input ends the run.
hub.stdin.close()
sys.exit(hub.wait())
