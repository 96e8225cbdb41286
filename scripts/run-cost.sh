#!/usr/bin/env bash
# Times whole runs of the proved program: creates in one `all`, a recovery of as many users, and boots of one user, each
# for a number, for twice and for four times that.
#   scripts/run-cost.sh
# It takes the program that .ci/run built and runs each script five times: milliseconds are the least, KiB the most.
# It needs GNU time, is no part of the gate, and changes nothing here.
set -euo pipefail
top=$(cd "$(dirname "$0")/.." && pwd)
program="$top/crates/vold_main/out/vold_main"
[ -x "$program" ] || { echo "run-cost: no proved program is built yet: .ci/run builds it" >&2; exit 1; }
work=$(mktemp -d)
trap 'rm -rf "$work"' EXIT

# A script that creates so many users in one `all`.
creates() {
    for ((user = 10; user < 10 + $1; user++)); do echo "create $user"; done
    echo all
}

# A stop that keeps nothing, and the recovery after it.
recovery() { printf 'stop 0\nrestart 1\nall\n'; }

# The scripts: so many creates; the same with a recovery behind them; one user with so many boots.
script() {
    case $1 in
    creates) creates "$2" ;;
    recovery) creates "$2" && recovery ;;
    boots) creates 1 && for ((boot = 0; boot < $2; boot++)); do recovery; done ;;
    esac
}

# Milliseconds and KiB of a script.
cost() {
    script "$1" "$2" > "$work/script"
    for _ in 1 2 3 4 5; do
        start=${EPOCHREALTIME/[.,]/}
        /usr/bin/time -o "$work/kib" -f '%M' "$program" run < "$work/script" > /dev/null
        echo "$((${EPOCHREALTIME/[.,]/} - start)) $(cat "$work/kib")"
    done | awk 'NR == 1 || $1 < t { t = $1 } $2 > m { m = $2 } END { printf "%.1f %d\n", t / 1000, m }'
}

printf '%-10s %8s %10s %10s\n' run number ms KiB
for run in creates:32 recovery:32 boots:1000; do
    for times in 1 2 4; do
        number=$((${run#*:} * times))
        read -r ms kib < <(cost "${run%:*}" "$number")
        printf '%-10s %8s %10s %10s\n' "${run%:*}" "$number" "$ms" "$kib"
    done
done
