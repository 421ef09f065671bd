# shellcheck shell=bash
# For bin/test and bin/check: stages that run side by side, each in its own process group. A script reads this file
# once; `room` is then a temporary folder, which is removed when the script ends.

minutes=''
runs=()
room=$(mktemp -d)

# NAME SECONDS: notes how long a stage took.
note() {
    minutes+=$(awk -v seconds="$2" -v name="$1" 'BEGIN { printf "%s %.1f, ", name, seconds / 60 }')
}

# NAME COMMAND..: starts a stage. Its output is shown once it has ended.
start() {
    local name=$1 number=${#runs[@]}
    shift
    set -m
    (
        began=$SECONDS status=0
        "$@" < /dev/null > "$room/$number.said" 2>&1 || status=$?
        echo "$((SECONDS - began))" > "$room/$number.seconds"
        exit "$status"
    ) &
    runs+=("$! $name")
    set +m
}

# Ends the stages that still run, with all processes that they have started.
leave() {
    local run
    for run in "${runs[@]}"; do
        kill -- "-${run%% *}" 2> /dev/null || :
    done
    rm -rf -- "$room"
}
trap leave EXIT

# Waits for the stages that were started, and prints the output of each, in their order. Fails if one has failed.
finish() {
    local number process name status=0
    for number in "${!runs[@]}"; do
        read -r process name <<< "${runs[number]}"
        wait "$process" || status=1
        cat -- "$room/$number.said"
        note "$name" "$(cat -- "$room/$number.seconds")"
    done
    return "$status"
}

live_years() {
    if command -v python3 > /dev/null; then
        bin/years
    else
        echo "years: no python3 here, so no hub lives for days"
    fi
}

check_documents() {
    if command -v python3 > /dev/null; then
        bin/check_schema && bin/check_believed && bin/check_pages && bin/check_documents && bin/pictures --check
    else
        echo "no python3 here, so docs/lines.schema.json, the table of docs/promises.md, the documents and" \
            "pictures aren't checked"
    fi
}
