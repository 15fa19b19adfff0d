#!/usr/bin/env bash
# Measures gets where pages don't all fit into frames, `ahi run` beside a plain cache of pages, and
# prints a table: docs/BENCH.md says how. Settings: AHI, the program's file (else ./ahi builds it,
# and the first build proves everything and takes minutes), ROWS=200000, PAGES, how many page
# numbers (else one for each fifty rows, and 4096 at least), BLOCKS="64 256 512 1024" and as many as
# there are page numbers, SEED=7, ROUNDS=5.
set -euo pipefail
. "$(dirname "$(readlink -f "${BASH_SOURCE[0]}")")/shared.sh"
rows=${ROWS:-200000}
pages=${PAGES:-$((rows / 50 > 4096 ? rows / 50 : 4096))}
folder=$target/pool
programs=(ahi lru)

print_head() {
    print_machine
    echo "seed $seed, $rows puts in no order and as many gets, median of $rounds"
    printf '%6s  %-7s %7s %7s %7s %6s %7s %7s %7s %9s %8s\n' blocks program 'wall s' 'user s' \
        'sys s' MiB 'ns/put' 'ns/get' 'get/lru' evictions 'of gets'
}

# Writes the puts alone, and the puts with the gets. A fifth of the lines of `gets` put.
generate() {
    rm -rf "$folder"
    "$target/generate" gets 1 $((5 * rows)) "$seed" "$folder"
    head -n $((rows + 1)) "$folder/bench-1.lane" >"$folder/puts.lane"
    head -n $((2 * rows + 1)) "$folder/bench-1.lane" >"$folder/both.lane"
    rm "$folder/bench-1.lane"
}

# The same indexes with so many frames.
set_blocks() {
    schema=$folder/blocks-$1.schema
    printf 'blocks %d\npages %d\n' "$1" "$pages" >"$schema"
    grep -v '^pages ' "$folder/bench.schema" >>"$schema"
}

# Runs a program once on the puts or on both, and notes what it took: `run_once ahi|lru puts|both`.
run_once() {
    local out=$folder/$1-$2 words
    case $1 in
        ahi) words=("$program" run) ;;
        lru) words=("$target/lru") ;;
    esac
    "$target/measure" "$out.times" "${words[@]}" "$schema" "$folder/$2.lane" \
        >"$out.report" 2>"$out.said" || fail "$blocks blocks: $1 ended with $?: $(cat "$out.said")"
}

# Runs each program once and judges its report.
try_all() {
    for name in "${programs[@]}"; do
        for part in puts both; do
            run_once "$name" "$part"
            check_report "$folder/$name-$part.report" "$schema" "$folder/$part.lane"
        done
    done
    rm -f "$folder"/*.times
}

# The programs take turns, so that a busy moment meets all of them.
measure() {
    for ((round = 0; round < rounds; round++)); do
        for name in "${programs[@]}"; do
            run_once "$name" puts
            run_once "$name" both
        done
    done
}

# Nanoseconds of the processor for each put: of the run of puts alone.
each_put() {
    awk -v rows="$rows" '{ printf "%.0f\n", ($2 + $3) * 1e9 / rows }' "$folder/$1-puts.times" |
        middle
}

# Nanoseconds of the processor for each get: what a run of both took beyond that of puts before it.
each_get() {
    paste -d ' ' "$folder/$1-puts.times" "$folder/$1-both.times" |
        awk -v rows="$rows" '{ printf "%.0f\n", ($6 + $7 - $2 - $3) * 1e9 / rows }' | middle
}

# How many pages went to their images in the peer: `evictions puts|both`.
evictions() {
    awk '/ evictions$/ { print $1 }' "$folder/lru-$1.said"
}

# The program's evictions aren't counted: those of the peer are of the same policy.
print_row() {
    local times=$folder/$1-both.times all=- of_gets=-
    if [ "$1" = lru ]; then
        all=$(evictions both) of_gets=$(($(evictions both) - $(evictions puts)))
    fi
    printf '%6d  %-7s %7.3f %7.3f %7.3f %6.1f %7s %7s %7s %9s %8s\n' "$blocks" "$1" \
        "$(median "$times" wall)" "$(median "$times" user)" "$(median "$times" sys)" \
        "$(median "$times" memory)" "$(each_put "$1")" "$(each_get "$1")" \
        "$(ratio "$(each_get "$1")" "$(each_get lru)")" "$all" "$of_gets"
}

build generate measure replay lru
print_head
generate
for blocks in ${BLOCKS:-64 256 512 1024 $pages}; do
    set_blocks "$blocks"
    try_all
    measure
    for name in "${programs[@]}"; do
        print_row "$name"
    done
done
echo "$(awk '/ pages$/ { print $1 }' "$folder/lru-both.said") pages, load $(load) at the end"
