#!/usr/bin/env bash
# Measures `ahi run` beside the peer and the limit, and prints a table: docs/BENCH.md says how.
# Settings: AHI, the program's file (else ./ahi builds it, and the first build proves everything and
# takes minutes), KINDS="gets seeks puts random descending front mix", LANES="1 2 4 8",
# LINES=200000 of all lanes together, or several numbers, BLOCKS, how many frames, and NODES, how many
# entries a partition of the hash has room for (else as many as a run has by default; with none no
# search is a hit), SEED=7, ROUNDS=5.
set -euo pipefail
. "$(dirname "$(readlink -f "${BASH_SOURCE[0]}")")/shared.sh"
programs=(ahi peer limit)

print_head() {
    print_machine
    echo "seed $seed, median of $rounds"
    printf '%-10s %7s %5s  %-7s %7s %7s %7s %6s %9s %8s %9s %7s\n' kind lines lanes program \
        'wall s' 'user s' 'sys s' MiB 'wall/peer' 'cpu/peer' 'ns/line' 'B/line'
}

# Runs a program once, and notes what it took.
run_once() {
    case $1 in
        ahi) set -- ahi "$program" run "${files[@]}" ;;
        peer) set -- peer "$target/peer" "${files[@]}" ;;
        limit) set -- limit "$target/limit" "$changes" "${files[@]}" ;;
    esac
    "$target/measure" "$folder/$1.times" "${@:2}" >"$folder/$1.report"
}

# Writes the files of a kind for so many lanes. Sets folder and files.
generate() {
    folder=$target/$1
    rm -rf "$folder"
    "$target/generate" "$1" "$2" "$lines" "$seed" "$folder"
    files=("$folder/bench.schema")
    if [ -n "${BLOCKS:-}" ]; then
        sed -i "1i blocks $BLOCKS" "$folder/bench.schema"
    fi
    if [ -n "${NODES:-}" ]; then
        sed -i "1i nodes $NODES" "$folder/bench.schema"
    fi
    for ((lane = 1; lane <= $2; lane++)); do
        files+=("$folder/bench-$lane.lane")
    done
}

# Runs each program once and judges its report. Sets changes.
try_all() {
    run_once peer || fail "peer failed"
    check_report "$folder/peer.report" "${files[@]}"
    changes=$(awk '/^changes / { sum += $3 } END { print sum }' "$folder/peer.report")
    run_once limit || fail "limit failed"
    [ "$(wc -l <"$folder/limit.report")" = "$(wc -l <"$folder/peer.report")" ] ||
        fail "$kind: limit and peer have different numbers of lines"
    run_once ahi || fail "$kind: ahi ended with $?: $(tail -n 1 "$folder/ahi.report")"
    check_report "$folder/ahi.report" "${files[@]}"
    rm -f "$folder"/*.times
}

# The programs take turns, so that a busy moment meets all of them.
measure() {
    for ((round = 0; round < rounds; round++)); do
        for name in "${programs[@]}"; do
            rm -f "$folder/$name.report"
            run_once "$name" || fail "$name failed"
        done
    done
}

# One number for each line: nanoseconds of the processor, or bytes of memory.
each_line() {
    awk -v whole="$1" -v scale="$2" -v lines="$lines" \
        'BEGIN { printf "%.0f", whole * scale / lines }'
}

print_rows() {
    local times peer=$folder/peer.times
    for name in "${programs[@]}"; do
        times=$folder/$name.times
        printf '%-10s %7d %5d  %-7s %7.3f %7.3f %7.3f %6.1f %9s %8s %9s %7s\n' \
            "$kind" "$lines" "$lanes" "$name" \
            "$(median "$times" wall)" "$(median "$times" user)" "$(median "$times" sys)" \
            "$(median "$times" memory)" \
            "$(ratio "$(median "$times" wall)" "$(median "$peer" wall)")" \
            "$(ratio "$(median "$times" cpu)" "$(median "$peer" cpu)")" \
            "$(each_line "$(median "$times" cpu)" 1000000000)" \
            "$(each_line "$(median "$times" memory)" 1048576)"
    done
}

build generate measure peer limit replay
print_head
for kind in ${KINDS:-gets seeks puts random descending front mix}; do
    for lanes in ${LANES:-1 2 4 8}; do
        for lines in ${LINES:-200000}; do
            generate "$kind" "$lanes"
            try_all
            measure
            print_rows
        done
    done
done
echo "load $(load) at the end"
