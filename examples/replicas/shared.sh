# What kill_one_of_each and measure share: brokers and replicas in a folder of their own, and how they are ended.
# shellcheck shell=bash
export LC_ALL=C

here=$(cd -- "$(dirname -- "$(readlink -f -- "${BASH_SOURCE[0]}")")" && pwd -P)
# Debian's package is for Debian's Python, and another one may come first on the PATH.
python3 -c 'import pika' 2> /dev/null || PATH=/usr/bin:$PATH
missing=''
[ -x /usr/lib/rabbitmq/bin/rabbitmq-server ] || command -v rabbitmq-server > /dev/null || missing+=' rabbitmq-server'
python3 -c 'import pika' 2> /dev/null || missing+=' python3-pika'
command -v socat > /dev/null || missing+=' socat'
if [ -n "$missing" ]; then
    echo "$(basename "$0"): there is no$missing here; on Debian: apt install$missing" >&2
    exit 1
fi
# REPLICAS_PROGRAM names another program.
program=${REPLICAS_PROGRAM:-$here/../../bin/inst_main}
"$program" --help > /dev/null # builds first where that is needed

made=$(mktemp -d)
nodes=$("$here/brokers" nodes)
hub=("$program" run --participants "$("$here/mixed_lines.py" --codes 64)" --places 1024 --fundings 1024)
declare -A group
failed=1

# shellcheck disable=SC2317
clean_up() {
    local name
    {
        for name in "${!group[@]}"; do
            kill -KILL -- "-${group[$name]}" || :
        done
        # shellcheck disable=SC2046
        kill $(jobs -p) || :
        "$here/brokers" stop "$made/brokers" || :
        wait
    } 2> /dev/null
    if [ "$failed" = 0 ]; then
        rm -rf -- "$made"
    else
        echo "$(basename "$0"): what there was is left in $made" >&2
    fi
}
trap clean_up EXIT
trap 'exit 130' INT TERM HUP

# N: the brokers, with node N first.
nodes_from() {
    cut -d , -f "$1-$(($1 + 2))" <<< "$nodes,$nodes"
}

# NAME COMMAND..: starts it in a session of its own.
start() {
    setsid "${@:2}" 2>> "$made/$1.errors" &
    group[$1]=$!
}

# NAME [NODES]: starts the replica over the folder of this name. Each asks another broker first.
start_replica() {
    mkdir -p -- "$made/$1"
    start "$1" "$here/adapter.py" replica "${2:-$(nodes_from $((${1#replica} % 3 + 1)))}" "$1" "$made/$1" "${hub[@]}"
}

# NAME SIGNAL: to all that was started under this name, as to a replica and its hub.
signal() {
    kill "-$2" -- "-${group[$1]}"
    if [ "$2" = KILL ]; then
        wait "${group[$1]}" || :
    fi
} 2> /dev/null

# NAME: the number of lines to which the replica has sent its replies.
sent_by() {
    sed -n 's/^{"lines": \([0-9]*\),.*/\1/p' "$made/$1/place" 2> /dev/null || echo 0
}
