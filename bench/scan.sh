#!/bin/sh
# Times the scanner on generated Go-like text, beside go/scanner where Go is installed: the two by turns in the same run, several
# times each, as one text and as a hundred texts of the same bytes. It prints the best and the median of each.
# usage: bench/scan.sh [MEGABYTES [RUNS]]     (20 and 9 where none are given; run at the top of the repository)
#
# What is timed is the call of scan for each text, from the text in memory to its list of tokens, with the names and the values
# of strings that the tokens own. go/scanner hands out one token after the other and keeps none, so our time alone has the cost
# of the list: 32 bytes a token, 167 MB for 20 MB of text. Nearly all of that is memory that the system hands out page by page
# as the list first reaches it; of a hundred texts each one takes the pages that the one before gave back.
set -eu
megabytes=${1:-20}
runs=${2:-9}
top=$(cd "$(dirname "$0")/.." && pwd)
work=$(mktemp -d)
trap 'rm -rf "$work"' EXIT

# the text: functions of common shapes, with comments, strings, runes and numbers of every form
awk -v want="$((megabytes * 1000000))" 'BEGIN {
    printf "package generated\n\nimport \"fmt\"\n\n"
    size = 40
    for (n = 0; size < want; n++) {
        part = sprintf("// value%d adds what it is given to a table, and says what came of it.\nfunc (t *table) value%d(name string, count int, rest ...float64) (int, error) {\n\tif count <= 0x%x || len(name) == 0 {\n\t\treturn -1, fmt.Errorf(\"value%d: bad count %%d of %%q\\n\", count, name)\n\t}\n\tfor i, r := range rest {\n\t\tt.rows[i&^0b11] += int(r*1.5e-3) << 2 /* scaled */\n\t\tswitch name[i%%len(name)] {\n\t\tcase %cx%c, %c\\n%c:\n\t\t\tt.seen[`raw %d`]++\n\t\tdefault:\n\t\t\tcontinue\n\t\t}\n\t}\n\tdone := func(k int) bool { return k != count && k >= %d_000 }\n\treturn t.total(done), nil\n}\n\n", n, n, n % 4096, n, 39, 39, 39, 39, n, n % 1000)
        printf "%s", part
        size += length(part)
    }
}' > "$work/input.go"
mkdir "$work/parts"
split -n l/100 "$work/input.go" "$work/parts/input."

mkdir -p "$work/repository/crates/scan_bench/src"
for crate in gs_base gs_syntax gs_numbers gs_scan; do
    cp -r "$top/crates/$crate" "$work/repository/crates/$crate"
    grep "^$crate:" "$top/crates.txt" >> "$work/repository/crates.txt"
done
echo "scan_bench: gs_base gs_scan gs_syntax gs_numbers sqlite_items unicode ucd_category ucd_table" >> "$work/repository/crates.txt"
cat > "$work/repository/crates/scan_bench/src/main.rt" <<'PROGRAM'
//! Times the scanner on the files that its arguments name: the microseconds, and how many tokens there are.
#![tactic(auto)]

use gs_scan::scan::scan;
use std::time::Instant;
use std::{env, fs, io};

fn main(rt: HostRuntime) -> io::Result<()> {
    let mut count = 0usize;
    let mut nanoseconds = 0u128;
    for path in env::args(&rt)?.skip(1) {
        let text = fs::read_to_string(&rt, path.as_str())?;
        if text.len() >= 1 << 32 {
            return Ok(());
        }
        let start = Instant::now(&rt)?;
        let found = scan(rt.alloc(), text.as_str());
        let elapsed = start.elapsed(&rt)?;
        if let Ok(tokens) = found {
            count = count.saturating_add(tokens.len());
            nanoseconds = nanoseconds.saturating_add(elapsed.as_nanos());
        }
    }
    println!(rt; "{} {}", nanoseconds / 1000, count)?;
    Ok(())
}
PROGRAM
(cd "$work/repository/crates/scan_bench" && rt run -- "$work/parts/input.aa") > "$work/build.log" 2>&1 || {
    cat "$work/build.log" >&2
    exit 1
}
cp "$work/repository/crates/scan_bench/out/scan_bench" "$work/ours"
programs=ours

if command -v go > /dev/null; then
    mkdir "$work/peer"
    cat > "$work/peer/main.go" <<'PROGRAM'
package main

import (
	"fmt"
	"go/scanner"
	"go/token"
	"os"
	"time"
)

func scan(text []byte) int {
	files := token.NewFileSet()
	var s scanner.Scanner
	s.Init(files.AddFile("input.go", -1, len(text)), text, nil, 0)
	count := 0
	for {
		_, kind, _ := s.Scan()
		if kind == token.EOF {
			return count
		}
		count++
	}
}

func main() {
	count := 0
	var elapsed time.Duration
	for _, path := range os.Args[1:] {
		text, err := os.ReadFile(path)
		if err != nil {
			panic(err)
		}
		start := time.Now()
		count += scan(text)
		elapsed += time.Since(start)
	}
	fmt.Println(elapsed.Microseconds(), count)
}
PROGRAM
    (cd "$work/peer" && GOCACHE="$work/cache" GO111MODULE=off go build -o ../gos main.go)
    programs="ours gos"
fi

# the programs by turns on the files, and then the best and the median of each
measure() {
    title=$1
    shift
    rm -f "$work"/times.*
    run=0
    while [ "$run" -lt "$runs" ]; do
        for program in $programs; do
            "$work/$program" "$@" >> "$work/times.$program"
        done
        run=$((run + 1))
    done
    echo "$title, $runs runs"
    for program in $programs; do
        case $program in
            ours) name=goserve ;;
            *) name=go/scanner ;;
        esac
        sort -n "$work/times.$program" | awk -v name="$name" '
            { time[NR] = $1; count = $2 }
            END { printf "  %-10s  %d tokens, best %.3f s, median %.3f s\n", name, count, time[1] / 1e6, time[int((NR + 1) / 2)] / 1e6 }'
    done
}

measure "one text of $megabytes MB" "$work/input.go"
measure "the same as 100 texts" "$work"/parts/input.*
