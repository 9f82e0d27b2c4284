#!/bin/sh
# Times the calls of int_col and bytes_col and the same loops in plain Rust, in nanoseconds a call: the least of five runs of
# each, in turn.
set -e
here=$(cd "$(dirname "$0")" && pwd)
build=$(mktemp -d)
trap 'rm -rf "$build"' EXIT

least() {
    awk '{
        column = $1 " " $2
        if (!(column in seen)) { order[++n] = column; seen[column] = 1; fields[column] = NF }
        for (i = 3; i + 1 < NF; i += 2)
            if (!((column, i) in best) || $(i + 1) < best[column, i]) { best[column, i] = $(i + 1); name[column, i] = $i }
    }
    END {
        for (k = 1; k <= n; k++) {
            column = order[k]
            printf "%s", column
            for (i = 3; i + 1 < fields[column]; i += 2) printf " %s %.1f", name[column, i], best[column, i]
            print ""
        }
    }' "$1"
}

rustc --edition 2021 -O -o "$build/baseline" "$here/baseline.rs"
cd "$here/../../crates/bench"
rt run >/dev/null
for _ in 1 2 3 4 5; do
    "$build/baseline" >>"$build/rust"
    out/bench columns >>"$build/rattle"
done
echo "Rust (rustc -O)"
least "$build/rust"
echo "Rattle"
least "$build/rattle"
