#!/usr/bin/env bash
# Measures changes of hashed leaves, with entries and with no room for them, and prints a table:
# docs/BENCH.md says how. Settings: AHI, the program's file (else ./ahi builds it, and the first build
# proves everything and takes minutes), KINDS="churn split", ROWS=100000, how many rows, or several
# numbers, one after another, SEED=7, ROUNDS=5.
set -euo pipefail
. "$(dirname "$(readlink -f "${BASH_SOURCE[0]}")")/shared.sh"
folder=$target/hash

print_head() {
    print_machine
    echo "seed $seed, median of $rounds"
    printf '%-6s %7s %8s  %-6s %7s %7s %7s %10s %8s\n' kind rows changes leaves 'wall s' 'user s' \
        'sys s' 'ns/change' 'hashed/no'
}

# Writes the rows with the gets that have their leaves hashed, and these with the changes.
generate() {
    rm -rf "$folder"
    case $kind in
        churn) lines=$((10 * rows)) ;;
        split) lines=$((5 * rows)) ;;
    esac
    "$target/generate" "$kind" 1 "$lines" "$seed" "$folder"
    mv "$folder/bench-1.lane" "$folder/all.lane"
    head -n $((4 * rows + 1)) "$folder/all.lane" >"$folder/rows.lane"
    changes=$((lines - 4 * rows))
}

# The same indexes, with room for an entry of each row or for none, in a partition for each index.
set_nodes() {
    schema=$folder/nodes-$1.schema
    printf 'parts 2\ncells %d\nnodes %d\nmax_changes 8388608\n' "$rows" "$1" >"$schema"
    cat "$folder/bench.schema" >>"$schema"
}

# Runs the program once on the rows or on all, and notes what it took: `run_once hashed|not rows|all`.
run_once() {
    local out=$folder/$1-$2
    case $1 in
        hashed) set_nodes $((2 * rows)) ;;
        not) set_nodes 0 ;;
    esac
    "$target/measure" "$out.times" "$program" run "$schema" "$folder/$2.lane" >"$out.report" ||
        fail "$kind: ahi ended with $?"
}

measure() {
    for ((round = 0; round < rounds; round++)); do
        for leaves in hashed not; do
            run_once $leaves rows
            run_once $leaves all
        done
    done
}

# Nanoseconds of the processor for each change: what a run of all took beyond that of the rows before.
each_change() {
    paste -d ' ' "$folder/$1-rows.times" "$folder/$1-all.times" |
        awk -v changes="$changes" '{ printf "%.0f\n", ($6 + $7 - $2 - $3) * 1e9 / changes }' | middle
}

print_row() {
    local times=$folder/$1-all.times
    printf '%-6s %7d %8d  %-6s %7.3f %7.3f %7.3f %10s %8s\n' "$kind" "$rows" "$changes" "$1" \
        "$(median "$times" wall)" "$(median "$times" user)" "$(median "$times" sys)" \
        "$(each_change "$1")" "$(ratio "$(each_change "$1")" "$(each_change not)")"
}

build generate measure replay
print_head
for kind in ${KINDS:-churn split}; do
    for rows in ${ROWS:-100000}; do
        generate
        for leaves in hashed not; do
            run_once $leaves all
            check_report "$folder/$leaves-all.report" "$schema" "$folder/all.lane"
        done
        rm -f "$folder"/*.times
        measure
        for leaves in hashed not; do
            print_row $leaves
        done
    done
done
echo "load $(load) at the end"
