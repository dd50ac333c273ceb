#!/bin/sh
# Runs check - over each file of Go's standard library that go/parser accepts, outside testdata, and lists each that has a fault of
# its form, G01 to G05, with whether it uses type parameters, type arguments, unions or `~`, which Go has had since go1.18.
# usage: bench/std_library.sh [FOLDER]     (go env GOROOT's src where none is given; run at the top of the repository)
set -eu
top=$(cd "$(dirname "$0")/.." && pwd)
folder=${1:-$(go env GOROOT)/src}
work=$(mktemp -d)
trap 'rm -rf "$work"' EXIT
printf 'package a\n' | "$top/bin/goserve" check - > /dev/null

mkdir "$work/peer"
cat > "$work/peer/main.go" <<'PROGRAM'
// Prints of each file of the standard input, which has one path a line, whether go/parser accepts it: "accepted", "newer" where it
// does and the file has a form that came with go1.18, or "refused".
package main

import (
	"bufio"
	"fmt"
	"go/ast"
	"go/parser"
	"go/token"
	"os"
)

func newer(file *ast.File) bool {
	found := false
	inType := func(e ast.Expr) {
		ast.Inspect(e, func(n ast.Node) bool {
			_, index := n.(*ast.IndexExpr)
			found = found || index
			_, array := n.(*ast.ArrayType)
			return !array
		})
	}
	ast.Inspect(file, func(n ast.Node) bool {
		switch n := n.(type) {
		case *ast.FuncType:
			found = found || n.TypeParams != nil
		case *ast.TypeSpec:
			found = found || n.TypeParams != nil
		case *ast.IndexListExpr:
			found = true
		case *ast.UnaryExpr:
			found = found || n.Op == token.TILDE
		case *ast.Field:
			if n.Type != nil {
				inType(n.Type)
			}
		case *ast.CompositeLit:
			_, index := n.Type.(*ast.IndexExpr)
			found = found || index
		case *ast.IndexExpr:
			switch n.Index.(type) {
			case *ast.ArrayType, *ast.MapType, *ast.ChanType, *ast.FuncType, *ast.StructType, *ast.InterfaceType:
				found = true
			}
		}
		return !found
	})
	return found
}

func main() {
	lines := bufio.NewScanner(os.Stdin)
	for lines.Scan() {
		file, err := parser.ParseFile(token.NewFileSet(), lines.Text(), nil, parser.SkipObjectResolution)
		switch {
		case err != nil:
			fmt.Println("refused", lines.Text())
		case newer(file):
			fmt.Println("newer", lines.Text())
		default:
			fmt.Println("accepted", lines.Text())
		}
	}
}
PROGRAM
(cd "$work/peer" && go mod init peer > /dev/null 2>&1 && go build -o ../go_parser .)
find -L "$folder" -name '*.go' -not -path '*/testdata/*' | sort > "$work/paths"
"$work/go_parser" < "$work/paths" > "$work/said"
awk '{ count[$1]++ } END { printf "%d files: go/parser accepts %d, %d of them with forms of go1.18, and refuses %d\n", NR, count["accepted"] + count["newer"], count["newer"], count["refused"] }' "$work/said"
while read -r said path; do
    [ "$said" = refused ] && continue
    "$top/out/goserve" check - < "$path" > "$work/answer" 2> /dev/null || true
    if grep -q ': G0[1-5] ' "$work/answer"; then
        echo "$said $path $(grep -c ': G0[1-5] ' "$work/answer") faults, the first: $(head -1 "$work/answer")"
    fi
done < "$work/said" > "$work/faulty"
cat "$work/faulty"
awk '{ count[$1]++ } END { printf "with faults of the form: %d files with forms of go1.18, %d others\n", count["newer"], count["accepted"] }' "$work/faulty"
