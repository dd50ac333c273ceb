#!/bin/sh
# Times check - on generated Go of many shapes, beside go/parser where Go is installed: the two by turns in the same run, several
# times each. It prints the best and the median of each.
# usage: bench/parse.sh [MEGABYTES [RUNS]]     (4 and 9 where none are given, and at most 4; run at the top of the repository)
#
# Our time is that of the whole process: reading the input, scanning it, the chunks, the table of places of each chunk, and the
# answer. go/parser's is that of the whole process too, which reads the file and parses it into trees without resolving names.
set -eu
megabytes=${1:-4}
runs=${2:-9}
top=$(cd "$(dirname "$0")/.." && pwd)
work=$(mktemp -d)
trap 'rm -rf "$work"' EXIT

awk -v want="$((megabytes * 1000000))" 'BEGIN {
    printf "package generated\n\nimport (\n\t\"fmt\"\n\t\"os\"\n)\n\n"
    size = 50
    deep = "x"
    for (i = 0; i < 60; i++) deep = "(" deep ")"
    long = "0"
    for (i = 0; i < 400; i++) long = long " + a[" i "]*b"
    wide = ""
    for (i = 0; i < 300; i++) wide = wide "{Name: \"n" i "\", Size: " i "},"
    for (n = 0; size < want; n++) {
        shape = n % 8
        if (shape == 0) part = sprintf("// value%d adds what it is given to a table.\nfunc (t *table) value%d(name string, count int, rest ...float64) (int, error) {\n\tif count <= 0x%x || len(name) == 0 {\n\t\treturn -1, fmt.Errorf(\"value%d: bad count %%d of %%q\\n\", count, name)\n\t}\n\tfor i, r := range rest {\n\t\tt.rows[i&^0b11] += int(r*1.5e-3) << 2 /* scaled */\n\t\tswitch name[i%%len(name)] {\n\t\tcase %cx%c, %c\\n%c:\n\t\t\tt.seen[`raw %d`]++\n\t\tdefault:\n\t\t\tcontinue\n\t\t}\n\t}\n\tdone := func(k int) bool { return k != count && k >= %d_000 }\n\treturn t.total(done), nil\n}\n\n", n, n, n % 4096, n, 39, 39, 39, 39, n, n % 1000)
        if (shape == 1) part = sprintf("type shape%d struct {\n\tembedded\n\tName, Other string `json:\"name\"`\n\tSize map[string][]*int\n\tCall func(a, b int, rest ...string) (chan<- int, <-chan error)\n}\n\n", n)
        if (shape == 2) part = sprintf("const (\n\tfirst%d = iota\n\tsecond%d\n\tthird%d string = \"three\"\n)\n\nvar table%d, other%d = []int{1, 2, 3}, map[string]bool{\"a\": true, \"b\": false}\n\n", n, n, n, n, n)
        if (shape == 3) part = sprintf("type reader%d interface {\n\tio.Reader\n\tRead%d(p []byte) (n int, err error)\n}\n\n", n, n)
        if (shape == 4) part = sprintf("func send%d(c chan int, done <-chan struct{}) {\n\tfor i := 0; ; i++ {\n\t\tselect {\n\t\tcase c <- i:\n\t\t\tif i > 10 {\n\t\t\t\tbreak\n\t\t\t} else if i < 0 {\n\t\t\t\tgoto out\n\t\t\t} else {\n\t\t\t\tdefer close(c)\n\t\t\t}\n\t\tcase v, ok := <-done:\n\t\t\t_, _ = v, ok\n\t\t\treturn\n\t\t}\n\t}\nout:\n\tgo send%d(c, done)\n}\n\n", n, n)
        if (shape == 5 && n % 64 == 5) part = "var deep" n " = " deep "\n\n"
        if (shape == 6 && n % 64 == 6) part = "var long" n " = " long "\n\n"
        if (shape == 7 && n % 64 == 7) part = "var wide" n " = []item{" wide "}\n\n"
        printf "%s", part
        size += length(part)
    }
}' > "$work/input.go"

"$top/bin/goserve" check - < "$work/input.go" > /dev/null 2>&1 || true
program="$top/out/goserve"
cat > "$work/ours" <<PROGRAM
#!/bin/sh
"$program" check - < "$work/input.go" > /dev/null 2>&1
status=\$?
[ "\$status" = 11 ] || { echo "status \$status" >&2; exit 1; }
PROGRAM
chmod +x "$work/ours"
names=ours
if command -v go > /dev/null; then
    mkdir "$work/peer"
    cat > "$work/peer/main.go" <<'PROGRAM'
package main

import (
	"fmt"
	"go/parser"
	"go/token"
	"os"
)

func main() {
	text, err := os.ReadFile(os.Args[1])
	if err == nil {
		_, err = parser.ParseFile(token.NewFileSet(), "input.go", text, parser.SkipObjectResolution)
	}
	if err != nil {
		fmt.Fprintln(os.Stderr, err)
		os.Exit(1)
	}
}
PROGRAM
    (cd "$work/peer" && go mod init peer > /dev/null 2>&1 && go build -o ../go_parser .)
    printf '#!/bin/sh\nexec "%s" "%s"\n' "$work/go_parser" "$work/input.go" > "$work/peer.sh"
    chmod +x "$work/peer.sh"
    names="ours peer.sh"
fi
for run in $(seq "$runs"); do
    for name in $names; do
        before=$(date +%s%N)
        "$work/$name"
        after=$(date +%s%N)
        echo $(((after - before) / 1000)) >> "$work/times.$name"
    done
done
echo "$(wc -c < "$work/input.go") bytes, $runs runs by turns"
for name in $names; do
    sort -n "$work/times.$name" | awk -v name="$name" '{ t[NR] = $1 } END { printf "%s: best %.3f s, median %.3f s\n", name == "ours" ? "check -" : "go/parser", t[1] / 1e6, t[int((NR + 1) / 2)] / 1e6 }'
done
