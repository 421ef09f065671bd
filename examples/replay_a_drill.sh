#!/usr/bin/env bash
# A drill whose threads race, and the same hub once more in one thread. The drill writes its script; a `play` of it ends
# with the positions that the drill reported, and with a statement line for each accepted transfer.
set -eu

top=$(cd -- "$(dirname -- "$(readlink -f -- "${BASH_SOURCE[0]}")")/.." && pwd -P)
"$top/bin/inst_main" --help > /dev/null # builds first where that is needed
made=$(mktemp -d)
trap 'rm -rf -- "$made"' EXIT
hub=(--participants AAAADEFF,BBBBFRPP)

echo "200 transfers of 100 cents, confirmed by two threads while a third one lets them time out:"
"$top/bin/inst_main" drill "${hub[@]}" --script "$made/script.jsonl" 2> "$made/ends"
read -r _ accepted _ timed_out < "$made/ends"
[ $((accepted + timed_out)) = 200 ] && echo "accepted and timed out: 200"

# WHO COUNT: asks for the last lines of a statement, and for the position.
questions() {
    local skip=0
    while [ $skip -lt "$2" ]; do
        printf '{"at":20000,"cmd":"statement","count":100,"skip":%s,"who":"%s"}\n' $skip "$1"
        skip=$((skip + 100))
    done
    printf '{"at":20000,"cmd":"position","who":"%s"}\n' "$1"
}

{
    cat "$made/script.jsonl"
    questions AAAADEFF 300
    questions BBBBFRPP 300
} | "$top/bin/inst_main" play "${hub[@]}" > "$made/replies"

echo "the script in one thread:"
grep -c '"reply":"refused"' "$made/replies" | sed 's/^/refused: /'
# The money of each participant by the drill's report.
wanted=$'{"available":'$((20000 - 100 * accepted))',"position":'$((20000 - 100 * accepted))$',"reply":"position","reserved":0}\n'
wanted+='{"available":'$((100 * accepted))',"position":'$((100 * accepted))',"reply":"position","reserved":0}'
[ "$(grep '"reply":"position"' "$made/replies")" = "$wanted" ] && echo "positions: as the drill reported"
lines=$(grep '"reply":"statement"' "$made/replies" | grep -o ' OUT \| IN  ' | wc -l)
echo "statement lines of transfers: $((lines - 2 * accepted)) more than two for each accepted one"
