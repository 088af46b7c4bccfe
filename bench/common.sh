# What the benchmarks share: baselines in plain Rust, built by rustc, and the best of several runs taken by turns.
top=$(cd "$(dirname "${BASH_SOURCE[0]}")/.." && pwd)
build=$top/bench/build
mkdir -p "$build"

# Builds baselines and makers of inputs, where they are missing or older than their sources. What several of them share
# stands in `baselines/parts`.
baseline() {
    local name folder=$top/bench/baselines
    for name; do
        [ -x "$build/$name" ] && [ -z "$(find "$folder/$name.rs" "$folder/parts" -newer "$build/$name")" ] ||
            rustc -O --edition 2024 -o "$build/$name" "$folder/$name.rs" || exit 70
    done
}

# The program itself: the one that the variable PQ names, or that of these sources.
pq=${PQ-$("$top/dist/program")} || exit 70

# Makes a shop of so many jobs and machines from the seed: make_shop SIZE SEED
make_shop() { "$pq" make shop --size "$1" --seed "$2" >"$build/shop-$1-$1" || exit 1; }

# The status that each timed command has to end with.
wanted=0

# Milliseconds of processor time that a command takes on the input in the file $1. The programs that are timed have one
# thread, and their processor time depends less than the clock's on what else the machine does.
run_once() {
    local input=$1 status TIMEFORMAT='%U %S'
    shift
    { time "$@" <"$input" >"$build/output" 2>"$build/faults"; } 2>"$build/time"
    status=$?
    [ "$status" -eq "$wanted" ] || { cat "$build/faults" >&2; echo "ends with $status: $*" >&2; exit 1; }
    awk '{ print 1000 * ($1 + $2) }' "$build/time"
}

# Runs a command so many times on the input in the file $2: again TIMES FILE COMMAND..
again() {
    local times=$1 input=$2
    shift 2
    for _ in $(seq "$times"); do "$@" <"$input" || return; done
}

# The least time that each of two commands takes, run by turns: compare NAME INPUT ROUNDS ours.. -- baseline..
# Where the variable nodes says how many nodes each makes, also the nodes a second.
nodes=
compare() {
    local name=$1 input=$2 rounds=$3 ours=() theirs=() mine other
    shift 3
    rm -f "$build/ours" "$build/theirs"
    while [ "$1" != -- ]; do ours+=("$1"); shift; done
    shift
    theirs=("$@")
    for _ in $(seq "$rounds"); do
        run_once "$input" "${ours[@]}" >>"$build/ours" || exit 1
        run_once "$input" "${theirs[@]}" >>"$build/theirs" || exit 1
    done
    mine=$(sort -n "$build/ours" | head -n 1)
    other=$(sort -n "$build/theirs" | head -n 1)
    awk -v n="$name" -v a="$mine" -v b="$other" -v nodes="$nodes" 'BEGIN {
        printf "%-44s pq %6.0f ms   plain Rust %6.0f ms   ratio %.2f\n", n, a, b, a / b
        if (nodes != "") printf "%44s pq %6.2f      plain Rust %6.2f million nodes a second\n", "", nodes / a / 1000, nodes / b / 1000
    }'
}
