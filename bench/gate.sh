#!/bin/sh
# Measures a whole merge gate from nothing: where its processor time goes, how long it takes, and how much memory it holds.
# It runs `rt ci` in a checkout, anew where the kit keeps what it passed, looks once a second at the processes below it, and
# prints the tables of README.md, "The gate".
#
# usage: bench/gate.sh [FOLDER]    FOLDER is the top of a checkout; without it, that of this script
#
# It wants `rt`, and Linux, for /proc. The row of a crate is what was seen of its processes, of which up to the last second
# of each is missed; the row "beside these" is the rest of what the system counted: compilers, tests, programs, and rt itself.
# The peak of memory is by how much less the machine had at hand than at the start, so nothing else should run.
set -eu

here=$(CDPATH='' cd -- "$(dirname "$0")" && pwd -P)
. "$here/measure.sh"
cd "${1:-$here/..}"
command -v rt >/dev/null 2>&1 || fail "the command 'rt' is missing"

# The processes below one, a line each: which it is and when it began, what it does, for which crate, and its processor time
# in ticks. A proof is `rattle build`, one with tests has `--test`, and an edit is `rattle check`.
look='
    {
        pid = $1
        parent[pid] = $2
        sub(/^ *[0-9]+ +[0-9]+ +/, "")
        args[pid] = $0
    }
    function is_below(pid) {
        while (pid > 1) {
            if (pid == root) return 1
            pid = parent[pid]
        }
        return 0
    }
    END {
        for (pid in parent) if (pid != root && is_below(pid)) {
            file = "/proc/" pid "/stat"
            if ((getline stat <file) <= 0) continue
            close(file)
            sub(/^.*[)] /, "", stat)
            split(stat, field, " ")
            kind = "-"
            crate = "-"
            if (args[pid] ~ /^[^ ]*rattle (build|check) / && match(args[pid], /--crate-name [a-z0-9_]+/)) {
                crate = substr(args[pid], RSTART + 13, RLENGTH - 13)
                kind = args[pid] ~ / --test( |$)/ ? "tests" : args[pid] ~ /^[^ ]*rattle check / ? "edits" : "proof"
            }
            print pid "-" field[20], kind, crate, field[12] + field[13]
        }
    }'

# How much memory the machine has at hand, in KiB.
at_hand() {
    awk '/^MemAvailable:/ { print $2 }' /proc/meminfo
}

anew=
if rt help 2>&1 | grep -q -e --anew; then anew=--anew; fi

begin=$(date +%s)
most=$(at_hand)
least=$most
(
    status=0
    rt ci $anew >"$work/gate" 2>&1 || status=$?
    printf '%s\n' "$status" >"$work/ended"
    times >"$work/times"
    mv "$work/ended" "$work/status"
) &
root=$!
while [ ! -f "$work/status" ]; do
    ps -A -o pid= -o ppid= -o args= | awk -v root="$root" "$look" >>"$work/samples"
    now=$(at_hand)
    [ "$now" -ge "$least" ] || least=$now
    sleep 1
done
end=$(date +%s)

# Minutes and seconds of `times`, as 1m2.5s, in seconds; its second line is that of the processes below.
whole=$(awk 'NR == 2 { for (i = 1; i <= 2; i++) { split($i, part, /[ms]/); sum += part[1] * 60 + part[2] } print sum }' "$work/times")

printf '| crate | proof, s | tests, s | edits, s | all, s |\n|---|---|---|---|---|\n'
awk -v tick="$(getconf CLK_TCK)" -v whole="$whole" '
    $2 != "-" {
        key = $1 " " $2 " " $3
        if ($4 > most[key]) most[key] = $4
    }
    END {
        for (key in most) {
            split(key, part, " ")
            crates[part[3]] = 1
            spent[part[3], part[2]] += most[key] / tick
            sum[part[2]] += most[key] / tick
        }
        for (crate in crates) {
            all = spent[crate, "proof"] + spent[crate, "tests"] + spent[crate, "edits"]
            printf "| `%s` | %.0f | %.0f | %.0f | %.0f |\n", crate, spent[crate, "proof"], spent[crate, "tests"], spent[crate, "edits"], all | "sort -t \"|\" -k 6 -n -r"
        }
        close("sort -t \"|\" -k 6 -n -r")
        seen = sum["proof"] + sum["tests"] + sum["edits"]
        printf "| beside these | | | | %.0f |\n", whole - seen
        printf "| the whole | %.0f | %.0f | %.0f | %.0f |\n", sum["proof"], sum["tests"], sum["edits"], whole
    }' "$work/samples"
printf '\n| processors | minutes | processor seconds | peak of memory, GB | rt ci |\n|---|---|---|---|---|\n'
printf '| %s | %s | %.0f | %s | %s |\n' "$(getconf _NPROCESSORS_ONLN)" "$(((end - begin + 30) / 60))" "$whole" \
    "$(awk -v held="$((most - least))" 'BEGIN { printf "%.1f", held * 1024 / 1e9 }')" "$(tail -n 1 "$work/gate")"
exit "$(cat "$work/status")"
