#!/usr/bin/env bash
# The commands format and node: each line of the grammar, the statuses, a kill -9 and a restart, another node's file, a locked file, and,
# where there is strace, that an answer is written only after the file was synced, and in which order a file is made; where there is
# python3, ten seconds of the example three_processes, whose trace is judged, and some of the others.
# Called with the program, as in: tests/node/node.sh crates/invite/out/invite. Its last line counts the checks.
set -u
top=$(cd "$(dirname "${BASH_SOURCE[0]}")/../.." && pwd)
source "$top/tests/common/tally.sh"
a_program "$1"
room=$(mktemp -d) || exit 1
trap 'rm -rf "$room"' EXIT
file=$room/node

# ends STATUS NAME WORDS..: the program ends so, with no input, and prints nothing to standard output
ends() {
    local want=$1 name=$2 status problem=''
    shift 2
    "$program" "$@" </dev/null >"$room/out" 2>"$room/err"
    status=$?
    [ "$status" -eq "$want" ] || problem="status $status in place of $want"
    [ "$want" -eq 2 ] || [ ! -s "$room/out" ] || problem='it prints something'
    [ "$want" -eq 0 ] || [ "$want" -eq 2 ] || [ -s "$room/err" ] || problem='it says nothing on standard error'
    mark "$problem" "$name"
}

# answers STATUS NAME INPUT TEXT WORDS..: a node that is fed this answers this, and ends so
answers() {
    local want=$1 name=$2 input=$3 text=$4 status problem=''
    shift 4
    printf '%b' "$input" | "$program" "$@" >"$room/out" 2>"$room/err"
    status=$?
    [ "$status" -eq "$want" ] || problem="status $status in place of $want"
    printf '%b' "$text" | cmp -s - "$room/out" || problem="it answers $(tr '\n' '/' <"$room/out")"
    mark "$problem" "$name"
}

# comes FILE PATTERN [TIMES]: waits until so many lines of a file are such, for five minutes at most
comes() {
    local until=$((SECONDS + 300))
    while [ "$(grep -cE "$2" "$1")" -lt "${3-1}" ] && [ "$SECONDS" -lt "$until" ]; do sleep 0.1; done
}

# fresh [FIRST]: makes the file of node 0 of 3 anew
fresh() {
    rm -f "$file"
    "$program" format "$file" 8 0 3 "$@" || echo "node.sh: the file isn't made"
}

ends 2 'format with no FILE' format
ends 2 'format with few slots' format "$file" 3 0 3
ends 2 'format with many slots' format "$file" 4097 0 3
ends 2 'format of no node' format "$file" 8 3 3
ends 2 'node with no NODES' node "$file" 0
ends 7 'node with no file' node "$file" 0 3
ends 0 'format' format "$file" 8 0 3
ends 1 'format over a file' format "$file" 8 0 3
ends 5 "another node's file" node "$file" 1 3
ends 5 "another cluster's file" node "$file" 0 4
ends 0 'no input' node "$file" 0 3
head -c 20000 /dev/zero >"$room/zeros"
ends 5 'a file that was never formatted' node "$room/zeros" 0 3
head -c 16000 "$file" >"$room/short"
ends 5 'a file that was cut' node "$room/short" 0 3

ask() { answers 0 "$1" "$2" "$3" node "$file" 0 3; }

alone='group Normal 0 0:1 0\nkeeps 1 0 0\nok 1\n'
ask 'a node begins down' 'state\njobs\ncheck\n' 'state Down\nok 1\nok 2\nok 3\n'
ask 'recover' 'recover\nstate\n' "${alone}state Normal coord 0 group 0:1 members 0 found - unready - checking no probing no count 1 pending 0 hand 0\nok 2\n"
ask 'a second life' 'recover\n' 'group Normal 0 0:2 0\nkeeps 2 0 0\nok 1\n'
fresh
ask 'check' 'recover\ncheck\n' "${alone}send 1 010100010000\nsend 2 010100020000\nok 2\n"
fresh
ask 'own invitation' 'recover\ndeliver 010501000009000000000000000002\ndeliver 010501000009010000000000000002\nstate\n' \
    "${alone}ok 2\nsend 1 010600010009010000000000000002\ngroup Reorganization 1 1:2 -\nok 3\nstate Reorganization coord 1 group 1:2 members - found - unready - checking no probing no count 1 pending 0 hand 0\nok 4\n"
fresh
ask 'deliver' 'recover\ndeliver 010101000000\ndeliver 010101020000\n' "${alone}send 1 01020001000101\nok 2\nrefused 3 Stranger\n"
fresh
ask 'a job' 'recover\nsubmit 3 6869\njobs\ndispatch\njobs\nfinish 0 0\njobs\n' \
    "${alone}take 0 0 3 6869\nok 2 id 0\npending 0 3 6869\nhand 0 0 3 6869\nok 3\nok 4\npending 0 3 6869\nhand 0 0 3 6869\nok 5\ngone 0\nok 6\nok 7\n"
fresh
ask 'equal priorities' 'recover\nsubmit 0 61\nsubmit 0 62 255\nsubmit 3 63 7\nsubmit 1 64 255\nsubmit 2 65\nrecover\ndispatch\n' \
    "${alone}take 0 0 0 61\nok 2 id 0\ntake 0 1 0 62 255\nok 3 id 1\ntake 0 2 3 63 7\nok 4 id 2\ntake 0 3 1 64 255\nok 5 id 3\ntake 0 4 2 65\nok 6 id 4\n$(
    )group Normal 0 0:2 0\ndrop 0 0\ndrop 0 1\ndrop 0 2\ndrop 0 3\ndrop 0 4\nkeeps 2 5 5\nok 7\n$(
    )take 0 1 0 62 255\ntake 0 3 1 64 255\ntake 0 2 3 63 7\ntake 0 0 0 61\ntake 0 4 2 65\nok 8\n"
fresh
ask 'refusals' 'submit 0 -\nrecover\nfinish 0 7\nsubmit 16 -\nsubmit 0 f\n' \
    'refused 1 Down\ngroup Normal 0 0:1 0\nkeeps 1 0 0\nok 2\nrefused 3 UnknownJob\nbad 4\nbad 5\n'
fresh
ask 'lines that cannot be read' 'x\n\n\nrecover \ndeliver\ndeliver 00\ntick x\nlost 128\nstate 1\nrecover\n' \
    'bad 1\nbad 2\nbad 3\nbad 4\nbad 5\nbad 6\nbad 7\ngroup Normal 0 0:1 0\nkeeps 1 0 0\nok 8\n'
ask 'a last line that is not whole' 'recover' ''
ask 'compact' 'compact\nrecover\ncompact\n' 'refused 1 Down\ngroup Normal 0 0:2 0\nkeeps 2 0 0\nok 2\nok 3\n'
fresh
ask 'a tick while down' 'tick 0\ntick 9000\n' 'ok 1\nok 2\n'
ask 'a job that a new group drops' 'recover\nsubmit 0 -\ndispatch\nrecover\n' \
    "${alone}take 0 0 0 -\nok 2 id 0\nok 3\ngroup Normal 0 0:2 0\ndrop 0 0\nkeeps 2 1 1\nok 4\n"
ask 'a job outlives its node' 'recover\njobs\n' 'group Normal 0 0:3 0\nkeeps 3 1 1\nok 1\npending 0 0 -\nok 2\n'
fresh 1000
ask 'a first count' 'recover\nsubmit 0 -\n' 'group Normal 0 0:1001 0\nkeeps 1001 1000 0\nok 1\ntake 0 1000 0 -\nok 2 id 1000\n'

# A tick fires the check, and then nothing more at that time. (How long it waits at most node_rows.py tries, over a clock that stands still.)
fresh
printf 'recover\ntick 0\ntick 60000\ntick 60000\n' | "$program" node "$file" 0 3 >"$room/out"
problem=''
[ "$(grep -c '^send 1 010100010000$' "$room/out")" -eq 1 ] || problem="it answers $(tr '\n' '/' <"$room/out")"
mark "$problem" 'a tick fires once'

# Work that was dispatched rests; in a new group it is dispatched at once, since its predecessor's jobs were dropped.
fresh
printf 'recover\nsubmit 0 -\ntick 1\ntick 2\nrecover\ntick 3\n' | "$program" node "$file" 0 3 >"$room/out"
problem=''
[ "$(grep -c '^fired dispatch$' "$room/out")" -eq 2 ] || problem="it answers $(tr '\n' '/' <"$room/out")"
[ "$(grep -c '^take 0 0 0 -$' "$room/out")" -eq 2 ] || problem="it answers $(tr '\n' '/' <"$room/out")"
mark "$problem" 'a new group hands its jobs out'

# A node that runs: its file is locked, and after kill -9 the next one finds what was answered.
fresh
mkfifo "$room/in"
: >"$room/out"
"$program" node "$file" 0 3 <"$room/in" >"$room/out" &
child=$!
exec 3>"$room/in"
printf 'recover\nsubmit 1 ff\n' >&3
comes "$room/out" '^ok 2'
ends 4 'a locked file' node "$file" 0 3
kill -9 "$child"
wait "$child" 2>/dev/null
exec 3>&-
ask 'after kill -9' 'recover\njobs\n' 'group Normal 0 0:2 0\nkeeps 2 1 1\nok 1\npending 0 1 ff\nok 2\n'

# A full output.
printf 'recover\n' | "$program" node "$file" 0 3 >/dev/full 2>"$room/err"
status=$?
problem=''
[ "$status" -eq 1 ] || problem="status $status in place of 1"
mark "$problem" 'a full output'

# Each answer of a command is written after the last sync of it: a raise and a Put write, sync and are answered in this order.
if command -v strace >/dev/null && strace -o "$room/probe" true 2>/dev/null; then
    fresh
    : >"$room/out"
    { printf 'recover\n'; comes "$room/out" '^ok 1'; printf 'submit 0 -\n'; comes "$room/out" '^ok 2'; } |
        strace -f -s 256 -o "$room/calls" -e trace=pwrite64,fdatasync,write "$program" node "$file" 0 3 >"$room/out" 2>&1
    order=$(sed -nE 's/.*(pwrite64|fdatasync)\(.*/\1/p; s/.*write\(1, .*(ok [0-9]).*/\1/p' "$room/calls" | grep -B1 '^ok' | tr '\n' ' ')
    problem=''
    [ "$order" = 'fdatasync ok 1 -- fdatasync ok 2 ' ] || [ "$order" = 'fdatasync ok 1 fdatasync ok 2 ' ] || problem="the calls are $order"
    [ "$(grep -c pwrite64 "$room/calls")" -gt 0 ] || problem='nothing was written'
    mark "$problem" 'an answer after its sync'
    problem=''
    tail -n 1 "$room/calls" >/dev/null
    awk '/pwrite64\(/ { open = 1 } /fdatasync\(/ { open = 0 } /write\(1,/ && open { bad = 1 } END { exit bad }' "$room/calls" || problem='an answer was written with a write not synced'
    mark "$problem" 'no answer over an unsynced write'

    # A file is locked before anything is written; its zeros and its name are synced before the store is formatted, and its label is the last write.
    rm -f "$file"
    strace -f -y -o "$room/calls" -e trace=openat,flock,ftruncate,write,pwrite64,fsync,fdatasync "$program" format "$file" 8 0 3
    order=$(sed -nE "s#^[0-9]+ +([a-z0-9]+)\(.*<$file>.*#\1#p; s#^[0-9]+ +([a-z0-9]+)\(.*<$room>.*#folder:\1#p" "$room/calls" | uniq | tr '\n' ' ')
    problem=''
    grep -qxE 'openat flock ftruncate write fsync folder:openat folder:fsync (pwrite64 fdatasync )+pwrite64 fsync ' <<<"$order" || problem="the calls are $order"
    mark "$problem" 'a file is made in this order'
else
    echo 'node.sh: there is no strace, so the order of calls is not looked at'
fi

# example NAME PATTERN COMMAND..: the example ends well, and in one of three runs its last lines show what it is for. How much comes about in
# some seconds hangs on the machine; that nothing is wrong doesn't. The word SECONDS stands for how long it runs: longer each time.
example() {
    local name=$1 pattern=$2 seconds problem=''
    shift 2
    for seconds in 7 30 100; do
        "${@/#SECONDS/$seconds}" >"$room/out" 2>&1 || { problem=$(tail -n 3 "$room/out"); break; }
        grep -qE "$pattern" "$room/out" && { problem=''; break; }
        problem=$(tail -n 3 "$room/out")
        [ "$seconds" -eq 100 ] || echo "played again: $name"
    done
    mark "$problem" "$name"
}

if command -v python3 >/dev/null; then
    three=$top/examples/three_processes/three_processes.py
    example 'three processes' 'groups [1-9].* answered [1-9].* gone [1-9]' python3 "$three" "$program" SECONDS 1
    example 'three processes and their enemy' 'groups [1-9].* answered [1-9].* gone [1-9]' python3 "$three" "$program" SECONDS 1 kill cut lose

    # three machines, all of them this one: they become one group, within some seconds where nothing else keeps them from it
    for seconds in 6 20 60 180; do
        rm -f "$room"/machine*
        base=$((10000 + RANDOM % 20000))
        addresses="127.0.0.1:$base 127.0.0.1:$((base + 1)) 127.0.0.1:$((base + 2))"
        for i in 0 1 2; do
            "$program" format "$room/machine$i" 64 "$i" 3
            # shellcheck disable=SC2086
            timeout "$seconds" python3 "$top/examples/three_machines/machine.py" "$program" "$room/machine$i" "$i" $addresses </dev/null >"$room/machine$i.out" 2>&1 &
        done
        wait
        problem=''
        [ "$(for i in 0 1 2; do grep '^group Normal' "$room/machine$i.out" | tail -n 1; done | sort -u | grep -c ' 0,1,2$')" -eq 1 ] || problem=$(tail -n 2 "$room"/machine?.out)
        [ "$(for i in 0 1 2; do grep '^group Normal' "$room/machine$i.out" | tail -n 1; done | sort -u | wc -l)" -eq 1 ] || problem=$(tail -n 2 "$room"/machine?.out)
        [ -n "$problem" ] || break
        [ "$seconds" -eq 180 ] || echo 'played again: three machines'
    done
    mark "$problem" 'three machines'

    rm -f "$file"
    "$program" format "$file" 64 0 1
    : >"$room/out"
    {
        printf 'recover\nsubmit 0 %s\n' "$(printf 'echo hello' | od -An -tx1 | tr -d ' \n')"
        comes "$room/out" '^gone'
    } |
        python3 "$top/examples/worker/worker.py" "$program" node "$file" 0 1 >"$room/out" 2>"$room/err"
    problem=''
    printf 'group Normal 0 0:1 0\nkeeps 1 0 0\nok 1\ntake 0 0 0 6563686f2068656c6c6f\nok 2 id 0\ngone 0\n' | cmp -s - "$room/out" || problem=$(cat "$room/out")
    [ "$(cat "$room/err")" = hello ] || problem='the command did not run'
    mark "$problem" 'a worker'

    # what is piped into a machine arrives whole, and a worker runs behind a machine
    machine=$top/examples/three_machines/machine.py
    base=$((10000 + RANDOM % 20000))
    "$program" format "$room/piped" 1024 0 1
    seq -f 'submit 0 %040.0f' 1000 >"$room/lines"
    : >"$room/out"
    timeout 600 python3 "$machine" "$program" "$room/piped" 0 "127.0.0.1:$base" <"$room/lines" >"$room/out" 2>&1 &
    child=$!
    comes "$room/out" '^ok id' 1000
    kill "$child"
    wait "$child" 2>/dev/null
    problem=''
    sed -n 's/^take 0 [0-9]* 0 /submit 0 /p' "$room/out" | cmp -s - "$room/lines" || problem="$(grep -c '^take' "$room/out") jobs are taken, and $(grep -c '^bad' "$room/out") lines can't be read"
    mark "$problem" 'what is piped into a machine'

    rm -f "$file"
    "$program" format "$file" 64 0 1
    : >"$room/out"
    exec 3<>"$room/in"
    printf 'submit 0 %s\n' "$(printf 'echo hello' | od -An -tx1 | tr -d ' \n')" "$(printf 'echo hello' | od -An -tx1 | tr -d ' \n')" >&3
    timeout 600 python3 "$machine" "python3 '$top/examples/worker/worker.py' '$program'" "$file" 0 "127.0.0.1:$((base + 1))" <"$room/in" >"$room/out" 2>"$room/err" &
    comes "$room/out" '^gone' 2
    kill $!
    wait $! 2>/dev/null
    exec 3>&-
    problem=''
    [ "$(grep -c '^take' "$room/out") $(grep '^ok' "$room/out" | sort | tr '\n' ' ')$(grep -c '^gone' "$room/out")" = '2 ok id 0 ok id 1 2' ] || problem=$(cat "$room/out" "$room/err")
    [ "$(sort -u "$room/err")" = hello ] || problem='the command did not run'
    mark "$problem" 'a worker behind a machine'

    if python3 -c 'import sqlite3' 2>/dev/null; then
        example 'a lock' 'takeovers ([2-9]|[1-9][0-9]+),.* refused [1-9].* both [1-9]' python3 "$top/examples/lock/lock.py" "$program" SECONDS
    fi
fi

tally
