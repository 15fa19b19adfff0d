#!/usr/bin/env bash
# Measures a page, in rows and in bytes, beside a sorted list of pairs: rows are put in, looked up and taken out again and
# again, of three lengths. docs/BENCH.md says how. It prints, for each of the three, the nanoseconds of the least round, and
# the instructions where valgrind is at hand. Settings: ROUNDS=3334.
set -euo pipefail
export LC_ALL=C
top=$(cd "$(dirname "$(readlink -f "${BASH_SOURCE[0]}")")/.." && pwd)
target=$top/bench/target
rounds=${ROUNDS:-3334}
counted=20

mkdir -p "$target"
rustc -O --edition 2024 -o "$target/pairs" "$top/bench/pairs.rs"
# proves the program and what it stands on, where that isn't done
(cd "$top/crates/page_bench" && rt run -- rows 300 30 1 >"$target/page_bench.log")

# the instructions that a call of each part took, of as many rows and rounds
count_instructions() {
    local rows=$1 out=$target/pages.callgrind
    shift
    valgrind --tool=callgrind --callgrind-out-file="$out" "$@" "$counted" >/dev/null 2>&1
    callgrind_annotate --inclusive=yes --threshold=100 "$out" | awk -v calls=$((rows * counted)) '
        { gsub(",", "", $1) }
        /put_all/ { puts += $1 } /count_all/ { searches += $1 } /take_all/ { removals += $1 }
        END { printf " %7.0f %7.0f %7.0f instructions", puts / calls, searches / calls, removals / calls }'
}

# a line for one page: its name, how many rows, how long a value, and the command
print_page() {
    local name=$1 rows=$2 value=$3
    shift 3
    "$@" "$rounds" times >"$target/$name.found"
    sed -n 2p "$target/$name.found" | awk -v name="$name" -v rows="$rows" -v value="$value" \
        '{ printf "%-6s %4d rows of %4d: %6d %6d %6d ns", name, rows, value, $1, $2, $3 }'
    if command -v valgrind >/dev/null; then
        count_instructions "$rows" "$@"
    fi
    echo
}

echo "                           puts searches removals"
for shape in "300 30" "600 0" "30 500"; do
    read -r rows value <<<"$shape"
    print_page rows "$rows" "$value" "$top/crates/page_bench/out/page_bench" rows "$rows" "$value"
    print_page bytes "$rows" "$value" "$top/crates/page_bench/out/page_bench" bytes "$rows" "$value"
    print_page pairs "$rows" "$value" "$target/pairs" "$rows" "$value"
    for name in rows bytes; do
        cmp <(head -1 "$target/$name.found") <(head -1 "$target/pairs.found")
    done
done
