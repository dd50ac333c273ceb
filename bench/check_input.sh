#!/bin/bash
# Times `goserve check -` on 65,536 bytes of declarations, the most that it takes: once without a fault, and once where each
# declaration has one. Prints the best and the median time of a whole run of the process, in milliseconds.
#
#   bench/check_input.sh [RUNS]
set -eu

top=$(cd "$(dirname "${BASH_SOURCE[0]}")/.." && pwd)
runs=${1:-21}
room=$(mktemp -d)
trap 'rm -rf "$room"' EXIT

# declarations FILE RIGHT: the package clause and constants, up to 65,536 bytes; RIGHT is `known` or `unknown`
declarations() {
    awk -v right="$2" 'BEGIN {
        text = "package a\nconst N0 = 1\n"; left = 65536 - length(text); printf "%s", text
        for (n = 1; ; n++) {
            name = right == "known" ? "N" (n - 1) : "M" n
            line = "const N" n " = " name "\n"
            if (length(line) > left) break
            printf "%s", line; left -= length(line)
        }
        while (left-- > 0) printf " "
    }' >"$1"
}

measure() {
    local file=$1 took=() begin end n status
    for ((n = 0; n < runs; n++)); do
        begin=$(date +%s%N)
        status=0
        "$top/out/goserve" check - <"$file" >"$room/written" || status=$?
        end=$(date +%s%N)
        took+=($(((end - begin) / 1000)))
    done
    mapfile -t took < <(printf '%s\n' "${took[@]}" | sort -n)
    printf '%s: %s bytes, %s lines, status %s, %s; best %s ms, median %s ms of %s runs\n' \
        "$2" "$(wc -c <"$file")" "$(wc -l <"$file")" "$status" "$(tail -n 1 "$room/written")" \
        "$(in_ms "${took[0]}")" "$(in_ms "${took[runs / 2]}")" "$runs"
}

in_ms() {
    printf '%d.%03d' "$(($1 / 1000))" "$(($1 % 1000))"
}

# builds the program where that is needed
printf 'package a\n' | "$top/bin/goserve" check - >"$room/written"

declarations "$room/known.go" known
declarations "$room/unknown.go" unknown
measure "$room/known.go" 'no faults'
measure "$room/unknown.go" 'all names undeclared'
