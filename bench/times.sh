# What the scripts of bench/ share: sourced, with $top (the repository) and $work (a folder to write in) set.

# Both programs are built for the processor level x86-64-v2, which has registers of 16 bytes. The C library picks its copies by the
# processor instead, with wider ones. It is kept at that level, so that a loop which a compiler makes a copy is compared with a loop.
level=glibc.cpu.hwcaps=-AVX,-AVX2,-AVX512F,-AVX512VL,-AVX_Fast_Unaligned_Load,-ERMS,-FSRM

# The least time of five runs of a program with these words, in nanoseconds. It reads $input, and $work/says is what it prints.
least() {
    best=
    for _ in 1 2 3 4 5; do
        from=$(date +%s%N)
        GLIBC_TUNABLES=$level "$@" <"${input:-/dev/null}" >"$work/says"
        took=$(($(date +%s%N) - from))
        if [ -z "$best" ] || [ "$took" -lt "$best" ]; then best=$took; fi
    done
    echo "$best"
}

# The proved program, whose first word says what it does.
bench="$top/crates/bench/out/bench"

# Proves and builds it.
build() {
    (cd "$top/crates/bench" && rt run <stdin >/dev/null 2>&1)
}

# compare NAME LABEL COUNT UNIT WORD..: builds the proved program and the plain bench/NAME.rs, runs both with the words, and prints
# how many of the unit each does in a second, where a run does COUNT, and their ratio (above 1: the proved code is faster).
compare() {
    name=$1 label=$2 count=$3 unit=$4
    shift 4
    build
    rustc --edition 2021 -O -C target-cpu=x86-64-v2 -o "$work/plain" "$top/bench/$name.rs"
    proved=$(least "$bench" "$name" "$@")
    mv "$work/says" "$work/proved_says"
    plain=$(least "$work/plain" "$@")
    if ! cmp -s "$work/proved_says" "$work/says"; then
        echo "the two programs disagree" >&2
        exit 1
    fi
    awk -v l="$label" -v u="$unit" -v n="$count" -v a="$proved" -v b="$plain" 'BEGIN {
        printf "%-16s  %.0f %s a second\n", l, n / a * 1000000000, u
        printf "%-16s  %.0f %s a second\n", "plain Rust", n / b * 1000000000, u
        printf "%-16s  %.2f\n", "ratio", b / a
    }'
}
