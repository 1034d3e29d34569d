#!/bin/sh
# Random calls of the library, beside the same as scripts for accrun: what the library answers, with the report behind
# each thousand calls, has to be what accrun prints, and so have its standard error and its status.
#
#   compare.sh PROGRAM FOLDER ROUNDS CALLS [LONG]
#
# PROGRAM is what main.c says, FOLDER where its files lie. Each round makes so many calls of each profile but one, with
# a seed of its own. Behind them LONG calls of the profile `long` are made: with 300,000 of them the trace is full. At
# the end a table says how often each status was answered, to what a script can say and to what none can say, and what
# the reports had. Each status that a script can see has to be met; that of a full trace only where LONG is given.
# Memory, NoTickets and CounterFull need a heap and limits that accrun has not: calls.c meets them.
#
# ACCRUN is the program accrun; where it is not given, the one that its crate has built.
set -eu
stress=$1
folder=$2
rounds=$3
calls=$4
long=${5:-0}
accrun=${ACCRUN:-$(dirname "$0")/../../../crates/accrun/out/accrun}
profiles='usual crowded queued deep pointers devices'
seen='Done NoAllowance TooManyItems OutOfHost Misaligned NoQueue PartlyPresent NotPresent DeviceFull QueueFull NoDevice
Absent'
made=0
wrong=0

if [ ! -x "$accrun" ]; then
    echo "compare.sh: there is no program $accrun; \`rt run\` in crates/accrun builds it" >&2
    exit 2
fi

# Makes calls of a profile, and runs accrun on their script.
compare() {
    "$stress" "$1" "$2" "$3" "$folder" >> "$folder/counts"
    made=$((made + $3))
    status=0
    # shellcheck disable=SC2046 # these are words
    "$accrun" $(cat "$folder/args") < "$folder/script" > "$folder/printed" 2> "$folder/told" || status=$?
    if ! cmp "$folder/stdout" "$folder/printed" || ! cmp "$folder/stderr" "$folder/told" ||
        [ "$status" -ne "$(cat "$folder/status")" ]; then
        echo "profile $1, seed $2: accrun answers otherwise, with status $status" >&2
        wrong=$((wrong + 1))
    fi
    awk '/^(map|pointer|ended|queue) / { print "report_line:" $1, 1, 0 }' "$folder/printed" >> "$folder/counts"
}

mkdir -p "$folder"
: > "$folder/counts"
for seed in $(seq "$rounds"); do
    for profile in $profiles; do
        compare "$profile" "$seed" "$calls"
    done
done
if [ "$long" -ne 0 ]; then
    compare long 1 "$long"
    seen="$seen TraceFull"
fi

met=0
awk -v seen="$seen" '
    BEGIN { printf "%-20s %12s %12s\n", "answered", "statements", "other calls" }
    !($1 in said) { names[++count] = $1 }
    { said[$1] += $2; unsaid[$1] += $3 }
    END {
        for (i = 1; i <= count; i++) printf "%-20s %12d %12d\n", names[i], said[names[i]], unsaid[names[i]]
        for (i = split(seen, wanted); i > 0; i--)
            if (said[wanted[i]] == 0) { print wanted[i] " was never met"; missing = 1 }
        exit missing
    }' "$folder/counts" || met=1
echo "$made calls, $wrong differences"
[ "$met" -eq 0 ] && [ "$wrong" -eq 0 ]
