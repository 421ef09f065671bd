#!/usr/bin/env bash
# A bank's side of a hub over a coprocess: sends each line after the reply to the one before was received.
set -eu

top=$(cd -- "$(dirname -- "$(readlink -f -- "${BASH_SOURCE[0]}")")/.." && pwd -P)
"$top/bin/inst_main" --help > /dev/null # builds first where that is needed
coproc HUB { exec "$top/bin/inst_main" run --participants AAAADEFF,BBBBFRPP; }
to=${HUB[1]} from=${HUB[0]} pid=$HUB_PID

# LINE: sends it, and sets `reply` to its reply.
ask() {
    printf '%s\n' "$1" >&"$to"
    read -r reply <&"$from"
    printf '> %s\n< %s\n' "$1" "$reply"
}

ask '{"at":0,"cents":50000,"cmd":"fund","ref":"F1","who":"AAAADEFF"}'
cents=60000
at=1000
while :; do
    ask '{"at":'$at',"cents":'$cents',"cmd":"submit","id":"T1","stamp":'$at',"to":"BBBBFRPP","who":"AAAADEFF"}'
    case $reply in
        *'"fault":"Shortage"'*) cents=$((cents / 2)) at=$((at + 10)) ;;
        *'"reply":"taken"'*) break ;;
        *) exit 1 ;;
    esac
done
ask '{"at":1500,"cmd":"confirm","from":"AAAADEFF","id":"T1","who":"BBBBFRPP"}'
ask '{"at":1600,"cmd":"position","who":"AAAADEFF"}'

# The end of the input ends the run.
exec {to}>&-
wait "$pid"
