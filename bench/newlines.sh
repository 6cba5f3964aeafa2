#!/usr/bin/env bash
# Measures how `hill play` reads 64 MiB of newlines, the longest script, and refuses one byte more.
# The first ends with status 0 and the second with 6, both without output. Target: each takes less
# processor time (user and system) than three times `wc -l` over the same file and a second.
set -u
hill=$(dirname "$(readlink -f "$0")")/../crates/hill/out/hill
[ -x "$hill" ] || { echo "hill isn't built: run rt ci first" >&2; exit 1; }
folder=$(mktemp -d)
trap 'rm -rf "$folder"' EXIT
TIMEFORMAT='%3U %3S %3R'
failed=0

# The processor time and the time by the clock of a command over the script, in milliseconds, each the best
# of three runs; its output and status are left in the folder.
measure() {
    local i
    : > "$folder/times"
    for i in 1 2 3; do
        { time "$@" < "$folder/script" > "$folder/output" 2> /dev/null; echo $? > "$folder/status"; } 2>> "$folder/times"
    done
    awk '{ used = ($1 + $2) * 1000; clock = $3 * 1000 }
        NR == 1 || used < least { least = used }
        NR == 1 || clock < soonest { soonest = clock }
        END { printf "%d %d\n", least, soonest }' "$folder/times"
}

# Plays so many newlines, and compares the status, the output and the time.
try() {
    local bytes=$1 wanted=$2 status limit word=met used clock wc_used wc_clock
    head -c "$bytes" /dev/zero | tr '\0' '\n' > "$folder/script"
    read -r wc_used wc_clock <<< "$(measure wc -l)"
    read -r used clock <<< "$(measure "$hill" play)"
    status=$(cat "$folder/status")
    limit=$((3 * wc_used + 1000))
    if [ "$status" != "$wanted" ] || [ -s "$folder/output" ]; then
        word="WRONG, status $status or its output"
    elif [ "$used" -ge "$limit" ]; then
        word=missed
    fi
    [ "$word" = met ] || failed=1
    echo "$bytes newlines: status $status, $used ms of processors ($clock by the clock); wc -l $wc_used ($wc_clock); limit $limit: $word"
}

try 67108864 0
try 67108865 6
exit "$failed"
