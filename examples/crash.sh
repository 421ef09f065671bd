#!/usr/bin/env bash
# A hub with a log is killed in the middle of a load, and resumes: no reply is lost, and none is written twice.
set -eu

top=$(cd -- "$(dirname -- "$(readlink -f -- "${BASH_SOURCE[0]}")")/.." && pwd -P)
"$top/bin/inst_main" --help > /dev/null # builds first where that is needed
made=$(mktemp -d)
trap 'rm -rf -- "$made"' EXIT

# WORDS..: becomes a hub with these options in addition.
hub() {
    exec "$top/bin/inst_main" run --participants AAAADEFF,BBBBFRPP --places 1024 "$@"
}

# Each bank is funded and submits a thousand transfers; the other bank confirms each.
{
    printf '{"at":0,"cents":5000,"cmd":"fund","ref":"F1","who":"%s"}\n' AAAADEFF BBBBFRPP
    for n in {1..1000}; do
        echo '{"at":'"$n"',"cents":3,"cmd":"submit","id":"T'"$n"'","stamp":'"$n"',"to":"BBBBFRPP","who":"AAAADEFF"}'
        echo '{"at":'"$n"',"cents":1,"cmd":"submit","id":"T'"$n"'","stamp":'"$n"',"to":"AAAADEFF","who":"BBBBFRPP"}'
        echo '{"at":'"$n"',"cmd":"confirm","from":"AAAADEFF","id":"T'"$n"'","who":"BBBBFRPP"}'
        echo '{"at":'"$n"',"cmd":"confirm","from":"BBBBFRPP","id":"T'"$n"'","who":"AAAADEFF"}'
    done
    printf '{"at":1000,"cmd":"position","who":"%s"}\n' AAAADEFF BBBBFRPP
} > "$made/load"
echo "$(wc -l < "$made/load") lines are to be answered"

# Kills the hub in the middle of the load: a thousand of its replies were read, and more are on their way.
mkfifo "$made/pipe"
hub --log "$made/hub.log" < "$made/load" > "$made/pipe" &
exec 3< "$made/pipe"
for ((count = 0; count < 1000; count++)); do
    read -r reply <&3
    echo "$reply"
done > "$made/replies"
status=0
{ kill -KILL "$!" && wait "$!" || status=$?; } 2> /dev/null
echo "the hub is killed after $count replies, its exit status is $status"
cat <&3 >> "$made/replies"

# The client counts the whole replies that it received, and asks how many lines the log has.
told=$(wc -l < "$made/replies")
lines=$("$top/bin/inst_main" log "$made/hub.log" | sed -n 's/^lines //p')
[ "$lines" -ge "$told" ] && echo "its log has each line whose reply came"

# First come the replies to lines of the log that were not received, then those to the lines that the log doesn't have.
head -n "$told" "$made/replies" > "$made/whole"
tail -n +$((lines + 1)) "$made/load" | hub --log "$made/hub.log" --told "$told" >> "$made/whole"
echo "the hub goes on from its log: $(wc -l < "$made/whole") replies in all"
hub < "$made/load" | cmp - "$made/whole" && echo "they are those of a hub that nobody killed; the last ones are"
tail -n 2 "$made/whole"
