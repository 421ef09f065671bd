#!/usr/bin/env bash
# A hub uses up its places and is closed. The next opening begins with its books: pending transfers stay pending,
# identifiers stay taken, and the places of transfers whose outcome both sides have booked are free again.
set -eu

top=$(cd -- "$(dirname -- "$(readlink -f -- "${BASH_SOURCE[0]}")")/.." && pwd -P)
"$top/bin/inst_main" --help > /dev/null # builds first where that is needed
made=$(mktemp -d)
trap 'rm -rf -- "$made"' EXIT

# LOG: answers lines as a hub with this log and two places for each originator.
hub() {
    "$top/bin/inst_main" run --participants AAAADEFF,BBBBFRPP --places 2 --log "$made/$1"
}

echo "monday:"
hub monday.log << 'LINES'
{"at":0,"cents":50000,"cmd":"fund","ref":"F1","who":"AAAADEFF"}
{"at":1000,"cents":20000,"cmd":"submit","id":"T1","stamp":1000,"to":"BBBBFRPP","who":"AAAADEFF"}
{"at":1100,"cmd":"confirm","from":"AAAADEFF","id":"T1","who":"BBBBFRPP"}
{"at":5000,"cents":300,"cmd":"submit","id":"T2","stamp":5000,"to":"BBBBFRPP","who":"AAAADEFF"}
{"at":5001,"cents":300,"cmd":"submit","id":"T3","stamp":5001,"to":"BBBBFRPP","who":"AAAADEFF"}
LINES

"$top/bin/inst_main" next --log "$made/monday.log" --to "$made/tuesday.log"
echo "tuesday begins with these books, and no line:"
sed -n 's/^{"book"/&/p' "$made/tuesday.log"
"$top/bin/inst_main" log "$made/tuesday.log" | grep lines

echo "tuesday:"
hub tuesday.log << 'LINES'
{"at":6000,"cents":300,"cmd":"submit","id":"T3","stamp":6000,"to":"BBBBFRPP","who":"AAAADEFF"}
{"at":6001,"cents":1,"cmd":"submit","id":"T1","stamp":6001,"to":"BBBBFRPP","who":"AAAADEFF"}
{"at":6002,"cmd":"confirm","from":"AAAADEFF","id":"T2","who":"BBBBFRPP"}
{"at":6003,"cmd":"position","who":"AAAADEFF"}
{"at":6003,"cmd":"position","who":"BBBBFRPP"}
LINES
