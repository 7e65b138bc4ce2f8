#!/usr/bin/env bash
# parallel.sh MODEL CHANNEL RUNS EACH OUT: the timing table of many runs, so many in each process, as many processes at a time as there are
# processors (GNU parallel, Debian package parallel; its option --sshlogin adds machines). OUT is byte for byte what one process prints.
set -euo pipefail
[[ $# -eq 5 && "$3 $4" =~ ^[1-9][0-9]*\ [1-9][0-9]*$ ]] || { echo "usage: examples/parallel.sh MODEL CHANNEL RUNS EACH OUT" >&2; exit 2; }
model=$1 channel=$2 runs=$3 each=$4 out=$5
command=${MATGRAVEL:-matgravel}
for tool in parallel "$command"; do
    command -v "$tool" >/dev/null || { echo "examples/parallel.sh: $tool is not on the path" >&2; exit 2; }
done
parts=$(mktemp -d)
trap 'rm -r "$parts"' EXIT

# The first run of each part, and how many it has.
parts_of() {
    local first
    for ((first = 1; first <= runs; first += each)); do
        echo "$first $((runs - first + 1 < each ? runs - first + 1 : each))"
    done
}

part=$(printf '%q ' "$command" timing "$model" --channel "$channel" --times)
parts_of | parallel --colsep ' ' "$part --first {1} --runs {2} > $parts/{1}.csv"
"$command" add "$parts"/*.csv > "$out"
