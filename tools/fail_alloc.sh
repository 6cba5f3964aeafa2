#!/usr/bin/env bash
# Refuses hill one allocation, the Nth, in a run over examples/range.jsonl by `rt try`, for each N in turn.
#
# An outcome is right where it is one of these:
#   whole   status 0 and the example's output: there is no Nth allocation
#   nomem   status 0 and an output that is right with `nomem` in place of one reply
#   cut     status 5 and a beginning of a right output, but not all of it
# Each run builds anew and takes a minute of a processor, so this is no part of the gate.
#
# usage: tools/fail_alloc.sh [N..]    JOBS=2 in the environment makes two runs at a time
set -u
top=$(dirname "$(readlink -f "$0")")/..
folder=$(mktemp -d)
trap 'rm -rf "$folder"' EXIT

# The lines of the right outputs. The example loads a table, line 1, and asks for a range, line 2.
nomem() { echo "{\"line\":$1,\"out\":{\"error\":\"nomem\",\"id\":$2},\"s\":0}"; }
made=$(sed -n 1p "$top/examples/range.out.jsonl")
range=$(sed -n 2p "$top/examples/range.out.jsonl")
no_object='{"line":2,"out":{"error":"malformed","id":2,"why":"object"},"s":0}'

# The right outputs where one allocation at most is refused, and what is told of each.
right=() told=()
add() { told+=("$1"); right+=("$(printf '%s\n' "${@:2}"; echo .)"); }
add "whole" "$made" "$range"
add "nomem: the load, without its id; the view's object isn't there" "$(nomem 1 null)" "$no_object"
add "nomem: the load, with its id; the view's object isn't there" "$(nomem 1 1)" "$no_object"
add "nomem: the view as a message, without its id" "$made" "$(nomem 2 null)"
add "nomem: the view as a message, with its id" "$made" "$(nomem 2 2)"
add "nomem: the view's last word" "$made" "$(nomem 3 2)"

# What an outcome is, by its status and its output.
judge() {
    local status=$1 output=$2 i whole
    for i in "${!right[@]}"; do
        whole=${right[i]%.}
        if [ "$status" = 0 ] && [ "$output" = "$whole" ]; then
            echo "${told[i]}"
            return
        elif [ "$status" = 5 ] && [ "$output" != "$whole" ] && [ "${whole:0:${#output}}" = "$output" ]; then
            echo "cut: after ${#output} bytes, $(printf %s "$output" | wc -l) lines"
            return
        fi
    done
    echo "WRONG: $output"
}

# Makes one run, and prints its line of the table. What `rt try` itself answers is no status of hill.
run() {
    local report=$folder/$1.report output status
    output=$(cd "$top/crates/hill" && rt try --fail-alloc "$1" -- play < "$top/examples/range.jsonl" 2> "$report"; echo .)
    status=$(sed -n 's/^run=ended status=\([0-9]*\) .*/\1/p' "$report")
    printf '%5s  %6s  %s\n' "$1" "${status:-none}" "$(judge "${status:-none}" "${output%.}")" | tee -a "$folder/table"
}

# Twenty numbers from the first on, and then every third.
numbers=("$@")
[ $# -gt 0 ] || mapfile -t numbers < <(seq 1 20; seq 23 3 101)

echo "    N  status  outcome"
for number in "${numbers[@]}"; do
    while [ "$(jobs -rp | wc -l)" -ge "${JOBS:-1}" ]; do wait -n; done
    run "$number" &
done
wait

count() { grep -c "^ *[0-9]*  *[a-z0-9]*  $1" "$folder/table"; }
wrong=$(count WRONG)
echo "${#numbers[@]} runs: $(count whole) whole, $(count nomem) nomem, $(count cut) cut, $wrong wrong"
[ "$wrong" = 0 ] && [ "$(wc -l < "$folder/table")" = "${#numbers[@]}" ]
