# shellcheck shell=bash
# What run.sh and pool.sh share: they source it. It reads AHI, SEED and ROUNDS, and sets top,
# target, seed, rounds and program.
export LC_ALL=C
top=$(cd "$(dirname "$(readlink -f "${BASH_SOURCE[0]}")")/.." && pwd)
target=$top/bench/target
seed=${SEED:-7} rounds=${ROUNDS:-5}
program=${AHI:-}

fail() {
    echo "bench: $*" >&2
    exit 1
}

# Builds the programs of these names, and finds ahi.
build() {
    mkdir -p "$target"
    for name in "$@"; do
        rustc -O --edition 2024 -o "$target/$name" "$top/bench/$name.rs"
    done
    if [ -z "$program" ]; then
        # without words the program ends with its usage line and status 2, once it is built
        "$top/ahi" >"$target/usage" </dev/null || [ $? -eq 2 ] || fail "ahi could not be built"
        program=$(ls -t "$top"/out/ahi-* | head -n 1)
    fi
}

load() {
    cut -d ' ' -f 1 /proc/loadavg
}

print_machine() {
    local memory
    memory=$(awk '/^MemTotal/ { printf "%.0f", $2 / 1024 / 1024 }' /proc/meminfo)
    echo "$(date +%F), $(uname -m), $(nproc) processors, $memory GiB, load $(load)"
}

# A report without the columns of its answers and without its statistics, in which programs differ.
without_columns() {
    awk '/^lane / { answers = 1; print; next }
        /^changes / { answers = 0 }
        /^stats / { next }
        answers { NF -= 2 }
        { print }' "$1"
}

# A legal report has the bytes of the one that its own order gives, but for columns and statistics:
# `check_report REPORT SCHEMA LANE..`.
check_report() {
    local report=$1 replayed=$1.replayed
    "$target/replay" "$report" "${@:2}" >"$replayed" || fail "${report##*/} isn't a report"
    cmp <(without_columns "$report") <(without_columns "$replayed") || fail "${report##*/} isn't legal"
    rm "$replayed"
}

# The median of numbers, one a line.
middle() {
    sort -n | sed -n "$((rounds / 2 + 1))p"
}

# The median of the wall's, the user's or the system's seconds, of cpu: the sum of the last two, or
# of the memory in MiB: `median TIMES WHICH`.
median() {
    awk -v which="$2" '{
        seconds["wall"] = $1; seconds["user"] = $2; seconds["sys"] = $3; seconds["cpu"] = $2 + $3
        seconds["memory"] = $4
        print seconds[which]
    }' "$1" | middle
}

ratio() {
    awk -v one="$1" -v two="$2" 'BEGIN { if (two > 0) printf "%.2f", one / two; else print "-" }'
}
