#!/usr/bin/env bash
# Prints how long the built program takes to check large scripts: the least wall time of three runs,
# in seconds. No part of the gate. Usage: tools/bench.sh [PROGRAM]
set -euo pipefail
cd "$(dirname "$0")/.."
program=$(realpath "${1:-crates/fints/out/fints}")
room=$(mktemp -d)
trap 'rm -rf "$room"' EXIT
TIMEFORMAT=%R

# A script of so many steps with 20 branches each and one segment. Branch 1 leads to the next step.
# `open`: each branch fires under codes of its own. `closed`: the first takes every code, and no other
# can fire. `late`: the branch before the last takes all that the first ones leave, but for one code.
# `carrying`: each fires under codes of its own, of which none is 0030, and so where 0030 stands beside.
branches() {
    awk -v steps="$1" -v kind="$2" -v segment="$3" '
    function on(j) {
        if (kind == "open") return sprintf("%02d**", j - 1)
        if (kind == "carrying") return sprintf("%02d**", j)
        if (kind == "closed") return j == 1 ? "****" : sprintf("%02d**", j)
        return j < 10 ? sprintf("%d***", j - 1) : j < 19 ? sprintf("9%d**", j - 10) : sprintf("99%d*", j - 11)
    }
    BEGIN {
        print "step = ["
        for (i = 1; i <= steps; i++) {
            printf "{name = \"s%d\", segments = [%s], repeat = 9, branches = [", i, segment
            for (j = 1; j <= 20; j++) {
                to = i + j <= steps ? "s" (i + j) : "again"
                printf "{on = \"%s\", to = \"%s\"}, ", on(j), to
            }
            print "]},"
        }
        print "]"
    }'
}

# So many listed accounts.
accounts() {
    awk -v count="$1" 'BEGIN {
        printf "{name = \"acct\", class = \"account\", values = ["
        for (i = 1; i <= count; i++) printf "[\"DE%05d\"], ", i
        print "]},"
    }'
}

# Steps in a row, each with so many segments of one text.
steps() {
    awk -v steps="$1" -v segments="$2" -v segment="$3" 'BEGIN {
        print "step = ["
        for (i = 1; i <= steps; i++) {
            printf "{name = \"s%d\", segments = [", i
            for (j = 1; j <= segments; j++) printf "%s,", segment
            print (i < steps ? "], default = \"s" (i + 1) "\"}," : "]},")
        }
        print "]"
    }'
}

# A bank with so many accounts, each of which permits a transfer.
bank() {
    cat examples/c.fints
    awk -v count="$1" 'BEGIN {
        for (i = 1; i <= count; i++)
            printf "HIUPD:13:6+%d::280:10020030+DE%05d+cust+1+EUR+Name++Giro++HKCCS:2\x27\n", i, i
    }'
}

# One line: what is checked, the bytes of the script, the lines told, and the least of three times.
show() {
    local what=$1 params=$2 script=$room/script.toml status
    : > "$room/times"
    for _ in 1 2 3; do
        status=0
        { time "$program" check --params "$params" --orders examples/orders.toml --script "$script" \
            > "$room/told" 2> "$room/said" || status=$?; } 2>> "$room/times"
        if [ "$status" -gt 1 ]; then
            echo "bench: $what: status $status: $(< "$room/said")" >&2
            exit 1
        fi
    done
    printf '%-58s %8d bytes %6d lines %7s s\n' "$what" "$(wc -c < "$script")" \
        "$(wc -l < "$room/told")" "$(sort -n "$room/times" | head -1)"
}

end='{kind = "HKEND", version = 1, elements = ["$dialog"]}'
tan='{kind = "HKTAN", version = 6, elements = ["4"]}'
order='{kind="HKCCS",version=1,elements=["$acct"]}'
pads=$(printf '"$pad",%.0s' {1..48})
bank 0 > "$room/few.fints"
bank 200 > "$room/many.fints"
bank 20000 > "$room/most.fints"
for count in 200 500 1000; do
    for kind in open closed late; do
        branches "$count" "$kind" "$end" > "$room/script.toml"
        show "$count steps, 20 $kind branches each" "$room/few.fints"
    done
    for kind in open carrying; do
        branches "$count" "$kind" "$tan" > "$room/script.toml"
        show "$count steps that submit an order, 20 $kind branches each" "$room/few.fints"
    done
done
{ echo 'field = ['; accounts 100; echo ']'; steps 1 100 "$order"; } > "$room/script.toml"
show "100 accounts in 100 orders" "$room/few.fints"
show "100 accounts in 100 orders, 202 rows of accounts" "$room/many.fints"
show "100 accounts in 100 orders, 20,002 rows of accounts" "$room/most.fints"
{ echo 'field = ['; accounts 100; echo ']'; steps 200 100 "$order"; } > "$room/script.toml"
show "100 accounts in 20,000 orders" "$room/few.fints"
show "100 accounts in 20,000 orders, 202 rows of accounts" "$room/many.fints"
{
    echo 'field = [{name = "pad", class = "text", min = 0, max = 10000}]'
    steps 1000 1 "{kind = \"HKEND\", version = 1, elements = [$pads]}"
} > "$room/script.toml"
show "1000 steps near the limit of weight" "$room/few.fints"
{
    echo 'field = [{name = "pad", class = "text", min = 0, max = 1000}]'
    steps 200 100 '{kind="HKEND",version=1,elements=["$pad","x"]}'
} > "$room/script.toml"
show "200 steps of 100 segments" "$room/few.fints"
