#!/usr/bin/env bash
# Each schedule of the folder schedules is recorded, and the plans of the folder plans and a storm are run in threads; each trace is judged: it
# has to be a run, since a cluster ran it. Spoiled, it is none.
# Called with the program, as in: tests/traces/traces.sh crates/invite/out/invite. Its last line counts the checks.
set -u
source "$(dirname "${BASH_SOURCE[0]}")/../common/tally.sh"
source "$(dirname "${BASH_SOURCE[0]}")/../common/schedules.sh"
a_program "$1"
cd "$(dirname "${BASH_SOURCE[0]}")/../.." || exit 1
room=$(mktemp -d) || exit 1
trap 'rm -rf "$room"' EXIT

# judge COMMAND INPUT NAME: what the command prints for this input is the trace of a run, and no run once a first message is one that nobody sent
judge() {
    local command=$1 input=$2 name=$3 trace=$room/$1-$3.json problem='' entries turns words=("$1")
    [ "$command" != threads ] || words+=(--order)
    "$program" "${words[@]}" <"$input" >"$trace" || problem="$command gives no trace"
    "$program" trace <"$trace" >"$room/verdict" || problem='its trace is no run'
    grep -qE '^Run( [0-9]+)*$' "$room/verdict" || problem='its verdict is no order'
    # As many turns as entries.
    entries=$(grep -o '"do":' "$trace" | wc -l)
    turns=$(($(wc -w <"$room/verdict") - 1))
    [ "$entries" -eq "$turns" ] || problem="$entries entries in $turns turns"
    mark "$problem" "$command $name"
    problem=''
    sed 's/"sent":\["[0-9a-f]*"/"sent":["010100010000"/' "$trace" >"$room/spoiled"
    if ! cmp -s "$trace" "$room/spoiled"; then
        "$program" trace <"$room/spoiled" >"$room/verdict" 2>"$room/why" && problem='it is a run without its first message'
        # The entry that is named is one of those that are left, each on a line of its own.
        node=$(cut -d' ' -f2 "$room/verdict")
        index=$(cut -d' ' -f3 "$room/verdict")
        grep -qE "^node $node: entry $index (\\([a-z]+\\) can't be: |waits for )" "$room/why" || problem='it is not said why'
        mark "$problem" "$command $name, spoiled"
    fi
}

for schedule in schedules/*.txt; do
    acts "$schedule" >"$room/acts"
    judge record "$room/acts" "$(basename "$schedule" .txt)"
done

# ordered NAME: beside the trace of these plans stands an order in which its turns can have been taken. Each message that was brought has its number
# there, that of an equal one that was sent before, and what came over one link has rising numbers.
ordered() {
    local problem=''
    [ "$("$program" trace --turns <"$room/threads-$1.json" | head -n 1)" = recorded ] || problem='its entries can not be taken in its order'
    mark "$problem" "take the order of $1"
    command -v python3 >/dev/null || return 0
    problem=$(python3 tests/traces/thread_order.py <"$room/threads-$1.json" 2>&1)
    mark "$problem" "the order of $1"
}

# entries MANY NAME: the trace of these plans has so many entries: one for each line behind the first two, but for empty ones
entries() {
    local problem='' many
    many=$(grep -o '"do":' "$room/threads-$2.json" | wc -l)
    [ "$many" -eq "$1" ] || problem="$many entries in place of $1"
    mark "$problem" "entries of $2"
}

for plans in plans/*.txt; do
    name=$(basename "$plans" .txt)
    acts "$plans" >"$room/acts"
    judge threads "$room/acts" "$name"
    entries "$(($(grep -c . "$room/acts") - 2))" "$name"
    ordered "$name"
    # one worker alone has one history
    if grep -qx -e ---- "$plans"; then
        problem=''
        cmp -s "$room/threads-$name.json" <(printed "$plans") || problem='it is another trace'
        # without the option there is no order
        "$program" threads <"$room/acts" | cmp -s - <(printed "$plans" | sed 's/,"order":"[^"]*"//') || problem='without its order it is another trace'
        mark "$problem" "the trace of $name"
    fi
done

# A storm: 8 nodes, of which each worker takes 20,000 turns: polls of each other node, all timers, jobs, and now and then a disk that fails, a crash
# and a recovery. The judge takes each history's turns once more.
awk 'BEGIN {
    print "cluster 8 256\nlinks 256"
    split("check merge accept ready coord dispatch", timers)
    for (fill = ""; length(fill) < 1400; ) fill = fill "a5"
    for (turn = 0; turn < 20000; turn++)
        for (node = 0; node < 8; node++) {
            print node, "intake", (node + 1 + turn % 7) % 8
            print node, "clock", timers[turn % 6 + 1]
            place = turn % 50
            if (place == 10) print node, "operator arm 3"
            else if (place == 15 || place == 30) print node, "operator recover"
            else if (place == 25) print node, "operator crash", fill
            else if (place % 10 == 0) print node, "operator submit 3 646967 1"
            else print node, "operator finish", node, int(turn / 4)
        }
}' >"$room/storm.txt"
judge threads "$room/storm.txt" storm
entries "$((20000 * 8 * 3))" storm
ordered storm

# A shorter one, in which each node polls all others between two timers, so that most messages are found.
awk 'BEGIN {
    print "cluster 8 64\nlinks 16"
    split("check merge accept ready coord dispatch", timers)
    for (round = 0; round < 300; round++)
        for (node = 0; node < 8; node++) {
            for (poll = 1; poll < 8; poll++) print node, "intake", (node + poll) % 8
            print node, "clock", timers[(round + node) % 6 + 1]
            if (round % 7 == 3) print node, "operator submit", (round + node) % 16, "6869", 1 + round % 255
            else if (round % 11 == 5) print node, "operator arm", round % 6
            else if (round % 31 == 12 + node) print node, "operator crash a5"
            else if (round % 13 == 8) print node, "operator finish", (node + round) % 8, int(round / 13)
            else print node, "operator recover"
        }
}' >"$room/polls.txt"
judge threads "$room/polls.txt" polls
entries "$((300 * 8 * 9))" polls
ordered polls

# A link of one slot takes a message again once the first was taken: node 1 is brought two or more. Which turns come before which is up to the
# threads, so there are some tries.
{
    printf 'cluster 2 4\nlinks 1\n'
    for _ in {1..4000}; do printf '0 clock check\n1 intake 0\n'; done
} >"$room/again.txt"
problem='node 1 is brought one message at most in 300 runs'
for _ in {1..300}; do
    "$program" threads --order <"$room/again.txt" >"$room/again.json" || { problem='there is no trace'; break; }
    if [ "$(grep -o '"do":"deliver"' "$room/again.json" | wc -l)" -ge 2 ]; then
        cp "$room/again.json" "$room/threads-again.json"
        problem=''
        break
    fi
done
mark "$problem" 'a slot that was emptied'
[ ! -e "$room/threads-again.json" ] || ordered again

# What of spoiled ones can't be, whatever the other nodes did.
if command -v python3 >/dev/null; then
    problem=''
    python3 tests/traces/trace_cores.py "$program" --each 2 >"$room/cores" || problem=$(tail -n 5 "$room/cores")
    mark "$problem" 'the cores of spoiled traces'
fi

tally
