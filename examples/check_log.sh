#!/usr/bin/env bash
# Verifies a log without the hub: each mark has the digest of the lines before it, from the previous mark on, and a byte
# 0 follows the last mark. Everything after that byte is ignored. The first word names the log. Without it, a log is
# made and verified, first as it is and then with a changed amount.
set -eu
export LC_ALL=C

# LOG: verifies each of its marks, and its end.
verify() {
    local at mark digest from=1 last=0 bytes
    while IFS=: read -r at mark; do
        digest=$(sed -n "$from,$((at - 1))p;${at}q" "$1" | sha256sum)
        if [ "$mark" != "{{${digest%% *}" ]; then
            echo "the log is damaged after line $last"
            return 1
        fi
        from=$at last=$at
    done < <(sed '/^{/!Q' "$1" | grep -an $'^{\001{[^\001]' | tr -d '\001')
    bytes=$(head -n "$last" "$1" | wc -c)
    if [ "$last" = 0 ] || [ "$(od -An -tu1 -j "$bytes" -N 1 "$1" | tr -d ' ')" != 0 ]; then
        echo "the log is damaged after line $last"
        return 1
    fi
    echo "the log is whole, with the digest $(sed -n "${last}p" "$1" | tr -d '{\001')"
}

if [ $# -gt 0 ]; then
    verify "$1"
    exit
fi

top=$(cd -- "$(dirname -- "$(readlink -f -- "${BASH_SOURCE[0]}")")/.." && pwd -P)
"$top/bin/inst_main" --help > /dev/null # builds first where that is needed
made=$(mktemp -d)
trap 'rm -rf -- "$made"' EXIT

# Answers lines as a hub with this log.
hub() {
    "$top/bin/inst_main" run --participants AAAADEFF,BBBBFRPP,CCCCITMM --log "$made/hub.log"
}

hub << 'LINES'
{"at":0,"cents":50000,"cmd":"fund","ref":"F1","who":"AAAADEFF"}
{"at":1000,"cents":20000,"cmd":"submit","id":"T1","stamp":1000,"to":"BBBBFRPP","who":"AAAADEFF"}
LINES
hub <<< "no JSON"

echo "the log, with ^A for the byte 1:"
sed 's/\x01/^A/;s/\x00$//' "$made/hub.log"
verify "$made/hub.log"
"$top/bin/inst_main" log "$made/hub.log" | grep digest

echo "with another amount:"
sed -i 's/20000/90000/' "$made/hub.log"
verify "$made/hub.log" || :
status=0
hub < /dev/null 2>&1 || status=$?
echo "its exit status is $status"
