#!/usr/bin/env bash
# At the end of the day a hub's positions begin a new chain of logs, without any other history. A bank leaves, another
# one joins. A submission of the day before isn't taken again.
set -eu

top=$(cd -- "$(dirname -- "$(readlink -f -- "${BASH_SOURCE[0]}")")/.." && pwd -P)
"$top/bin/inst_main" --help > /dev/null # builds first where that is needed
made=$(mktemp -d)
trap 'rm -rf -- "$made"' EXIT

# LOG CODES BASE: answers lines as a hub with this log, these participants and this base.
hub() {
    "$top/bin/inst_main" run --log "$made/$1" --participants "$2" --base "$3"
}

# WORDS..: makes Tuesday's log from Monday's positions.
new_chain() {
    "$top/bin/inst_main" next --positions --log "$made/monday.log" --to "$made/tuesday.log" "$@"
}

echo "monday:"
hub monday.log AAAADEFF,BBBBFRPP,CCCCITMM 0 << 'LINES'
{"at":0,"cents":50000,"cmd":"fund","ref":"F1","who":"AAAADEFF"}
{"at":1000,"cents":20000,"cmd":"submit","id":"T1","stamp":1000,"to":"BBBBFRPP","who":"AAAADEFF"}
{"at":1100,"cmd":"confirm","from":"AAAADEFF","id":"T1","who":"BBBBFRPP"}
{"at":5000,"cents":300,"cmd":"submit","id":"T2","stamp":5000,"to":"BBBBFRPP","who":"AAAADEFF"}
LINES
echo "while T2 is pending:"
new_chain 2>&1 || echo "status $?"

echo "at its deadline:"
hub monday.log AAAADEFF,BBBBFRPP,CCCCITMM 0 << 'LINES'
{"at":15000,"cmd":"position","who":"BBBBFRPP"}
LINES
echo "without BBBBFRPP, which has money:"
new_chain --participants AAAADEFF,CCCCITMM 2>&1 || echo "status $?"

new_chain --participants DDDDNL2A,BBBBFRPP,AAAADEFF --ceiling 12000 --base 20000
echo "tuesday begins with these books:"
sed -n 's/^{"book"/&/p' "$made/tuesday.log"

echo "tuesday:"
"$top/bin/inst_main" run --log "$made/tuesday.log" --participants DDDDNL2A,BBBBFRPP,AAAADEFF --base 20000 \
    --ceiling 12000 << 'LINES'
{"at":20000,"cmd":"position","who":"AAAADEFF"}
{"at":20000,"cmd":"position","who":"BBBBFRPP"}
{"at":20000,"cmd":"position","who":"DDDDNL2A"}
{"at":20000,"cents":300,"cmd":"submit","id":"T2","stamp":5000,"to":"BBBBFRPP","who":"AAAADEFF"}
{"at":20001,"cmd":"confirm","from":"AAAADEFF","id":"T1","who":"BBBBFRPP"}
{"at":20002,"cents":300,"cmd":"submit","id":"T2","stamp":20002,"to":"BBBBFRPP","who":"AAAADEFF"}
LINES

echo "an audit of both:"
(cd -- "$made" && "$top/bin/inst_main" audit monday.log tuesday.log) | sed 's/, digest .*//'
echo "in another order:"
(cd -- "$made" && "$top/bin/inst_main" audit tuesday.log monday.log) 2>&1 || echo "status $?"
