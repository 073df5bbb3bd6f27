#!/usr/bin/env bash
# Times the built program over a program near the limits: 64 variables, 399 statements, tests and sums that grow with the
# length that is asked for. The proof is refused at its first token, so that nothing but reading and typing is timed.
# Build the program first: (cd crates/step_main && rt run -- check data/program data/proof data/certs)
# bench/programs.sh [BYTES]: how many bytes the statements have together, 4,150,000 if it isn't said.
set -eu
cd "$(dirname "$0")/.."
step=$PWD/crates/step_main/out/step_main
folder=$(mktemp -d)
trap 'rm -rf "$folder"' EXIT
cd "$folder"
awk -v bytes="${1:-4150000}" '
function many(part, count,   text, i) { for (i = 0; i < count; i++) text = text part; return text }
BEGIN {
    clause = "(x3 + 2 * x11 - 7 * x30 <= 17 /\\ ~b5 \\/ x3 = 4 -> b29)"
    summand = " + 3 * (x7 - x30) - 3 * x7 + 3 * x30"
    each = bytes / 267
    test = clause many(" /\\ " clause, each / (length(clause) + 4))
    total = many(summand, each / length(summand))
    for (i = 0; i < 32; i++) { numbers = numbers (i ? ", " : "") "x" i; truths = truths (i ? ", " : "") "b" i }
    printf "local %s: integer where x0 = 0;\nlocal %s: boolean where ~b0;\nP :: [\n", numbers, truths
    split("b1 := " test "|x1 := x1" total "|await " test "|<< x2 := x2 + 1; b2 := " test " >>", kinds, "|")
    for (i = 0; i < 267; i++) printf "%s    %% what the counters have come to\n    %s", (i ? ";\n" : ""), kinds[i % 4 + 1]
    print "\n]"
}' > program
printf 'none' > proof
: > certs
best=
for _ in 1 2 3 4 5; do
    begin=$(date +%s%N)
    report=$("$step" check program proof certs || true)
    end=$(date +%s%N)
    if [ "$report" != "proof refused: Syntax at 0" ]; then
        printf '%s\n' "$report" >&2
        exit 1
    fi
    if [ -z "$best" ] || [ $((end - begin)) -lt "$best" ]; then best=$((end - begin)); fi
done
awk -v bytes="$(wc -c < program)" -v span="$best" 'BEGIN { printf "%d bytes read and typed in %.0f ms: %.1f MB a second\n", bytes, span / 1e6, bytes * 1e3 / span }'
