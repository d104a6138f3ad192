#!/usr/bin/env bash
# The command line of the program. What can't be read ends with status 2, says what is wrong, and leaves the input unread; the
# examples of the help run; some runs of each command show the statuses 0 and 1, what is printed, and what comes of an output that is full.
# Called with the program, as in: tests/program/command_lines.sh crates/invite/out/invite. Its last line counts the checks.
set -u
top=$(readlink -f "$(dirname "${BASH_SOURCE[0]}")/../..")
source "$top/tests/common/tally.sh"
a_program "$1"
room=$(mktemp -d) || exit 1
trap 'rm -rf "$room"' EXIT

# start INPUT OUTPUT WORDS..: runs the program; its status is in $status, what it left unread in $room/left
start() {
    local input=$1 output=$2
    shift 2
    printf '%b' "$input" >"$room/in"
    {
        "$program" "$@" >"$output" 2>"$room/err"
        status=$?
        cat >"$room/left"
    } <"$room/in"
}

# refused WORDS..: the command line can't be read
refused() {
    local problem=''
    start 'unread\n' "$room/out" "$@"
    [ "$status" -eq 2 ] || problem="status $status in place of 2"
    [ ! -s "$room/err" ] || problem='it writes to standard error'
    grep -qE '^(error: |Usage: invite |invite [0-9])' "$room/out" || problem='it says neither what is wrong nor how it is written'
    cmp -s "$room/in" "$room/left" || problem='it read its input'
    mark "$problem" invite "$@"
}

# helps COMMAND: its help has its exit statuses and an example, which runs at the top of the repository
helps() {
    local problem='' example
    start '' "$room/out" "$1" --help
    grep -q "^Usage: invite $1\\b" "$room/out" || problem="no usage of $1"
    grep -q '^Exit status: 0 .*; 1 .*; 2 the command line ' "$room/out" || problem="no exit statuses of $1"
    example=$(sed -n 's/^Example: //p' "$room/out")
    [ -n "$example" ] || problem='no example'
    example=${example//\/tmp\//$room/}
    (cd "$top" && eval "${example//invite $1/$program $1}") > "$room/out" 2> "$room/err" || problem="its example ends badly: $example"
    [ ! -s "$room/err" ] || problem='its example writes to standard error'
    mark "$problem" invite "$1" --help
}

# says REASON: what the next run has to say on standard error
reason=''
says() {
    reason="invite: $1"
}

# prints STATUS INPUT TEXT WORDS..: the program reads all of its input, prints the text and ends so; on standard error stands the
# reason that was printed before, or nothing
prints() {
    local want=$1 input=$2 text=$3 problem=''
    shift 3
    start "$input" "$room/out" "$@"
    [ "$status" -eq "$want" ] || problem="status $status in place of $want"
    [ "$(cat "$room/err")" = "$reason" ] || problem="standard error is '$(cat "$room/err")' in place of '$reason'"
    reason=''
    [ ! -s "$room/left" ] || problem='it left input unread'
    printf '%b' "$text" | cmp -s - "$room/out" || problem="it prints something else than $text"
    mark "$problem" invite "$@"
}

# full INPUT WORDS..: where standard output is full, the program ends with status 1, and says so
full() {
    local problem=''
    start "$1" /dev/full "${@:2}"
    [ "$status" -eq 1 ] || problem="status $status in place of 1, over a full output"
    grep -qx "invite: can't write: No space left on device.*" "$room/err" || problem="it says '$(cat "$room/err")' of a full output"
    mark "$problem" invite "${@:2}"
}

# folder WORDS..: where standard input can't be read, the program ends with status 1, prints nothing, and says so
folder() {
    local problem=''
    "$program" "$@" < / >"$room/out" 2>"$room/err"
    status=$?
    [ "$status" -eq 1 ] || problem="status $status in place of 1, over a folder as input"
    [ ! -s "$room/out" ] || problem='it prints something'
    grep -qx "invite: can't read: Is a directory.*" "$room/err" || problem="it says '$(cat "$room/err")' of a folder as input"
    mark "$problem" invite "$@"
}

refused
refused unknown
refused help
refused --help
refused answer
refused answer 3
refused answer 0 3 4
refused answer 3 3
refused answer 0 0
refused answer 0 129
refused answer 128 129
refused answer 00 3
refused answer 0 03
refused answer +0 3
refused answer -1 3
refused answer 0x0 3
refused answer --help
refused show 1
refused sim 1
refused sim --name
refused sim --names=1
refused show --names
refused store
refused store a b
refused trace --ongoing=1
refused record 1
refused threads 1
refused threads --order=1
refused trace --turns=1
refused trace --turns --ongoing
refused trace --turns a
refused draw
refused inspect
refused inspect a b
refused export
refused format a 4 0 3 1 --jobs
for word in --version -V; do
    problem=''
    start 'unread\n' "$room/out" "$word"
    [ "$status" -eq 0 ] || problem="status $status in place of 0"
    [ "$(cat "$room/out")" = 'invite 0.1.0' ] || problem="it prints '$(cat "$room/out")'"
    [ ! -s "$room/err" ] || problem='it writes to standard error'
    cmp -s "$room/in" "$room/left" || problem='it read its input'
    mark "$problem" invite "$word"
done
"$program" format --lease "$room/leases0" 0
for command in answer show sim store format node lease inspect export trace judge record threads; do
    problem=''
    start '' "$room/out" --help
    grep -q "^  $command " "$room/out" || problem="the help doesn't name $command"
    mark "$problem" invite --help
    helps "$command"
done

# mistaken TEXT WORDS..: an argument is out of its range, and it is said which
mistaken() {
    local problem='' text=$1
    start 'unread\n' "$room/out" "${@:2}"
    [ "$status" -eq 2 ] || problem="status $status in place of 2"
    [ "$(head -n 1 "$room/out")" = "error: $text" ] || problem="it says '$(head -n 1 "$room/out")' in place of 'error: $text'"
    mark "$problem" invite "${@:2}"
}

for words in 'answer 3 3' 'answer 0 129' "format $room/new 4 3 3" "node $room/new 00 3"; do
    mistaken 'SELF and NODES are decimal numbers, NODES from 1 to 128, and SELF is below NODES' $words
done
for slots in 3 4097 04; do
    mistaken 'SLOTS is a decimal number from 4 to 4096' format "$room/new" "$slots" 0 3
done
mistaken 'FIRST is a decimal number below 2^64' format "$room/new" 4 0 3 18446744073709551616
mistaken 'the stride is 512 or 4096' format "$room/new" 4 0 3 --stride 8
mistaken 'ROUND_TRIP_MS is a decimal number from 1 to 60000' node "$room/new" 0 3 0

# A file that is made where one is, whose that is; which rule a line of jobs breaks; and a file that is none of a node or of a store.
says "$room/node0: there is something of this name: File exists (os error 17): it is the file of node 0 of 3"
prints 1 '' '' format "$room/node0" 64 0 3
echo 'a text' >"$room/text"
nobody="it is no node's file: it was never formatted, or its end was cut off"
says "$room/text: there is something of this name: File exists (os error 17): $nobody"
prints 1 '' '' format "$room/text" 64 0 3
says "$room/text: something is damaged or missing: $nobody"
prints 1 '' 'too_small 0\n' inspect "$room/text"
says "$room/text: something is damaged or missing: $nobody"
prints 1 '' 'too_small 0\n' export "$room/text"
says 'line 2: not of the form job ID QUEUE HEX [P]'
prints 1 '\njob 0 1\n' '' format "$room/new" 4 0 3 9 --jobs -
says "line 2: its ID isn't below FIRST"
prints 1 'job 0 1 -\njob 9 1 -\n' '' format "$room/new" 4 0 3 9 --jobs -
says "line 3: its ID isn't above those before it"
prints 1 'job 4 1 -\n\njob 4 1 -\n' '' format "$room/new" 4 0 3 9 --jobs -
says 'line 3: too many jobs for SLOTS, which takes two fewer'
prints 1 'job 4 1 -\njob 5 1 -\njob 6 1 -\n' '' format "$room/new" 4 0 3 9 --jobs -

prints 0 '010102000000\n' '01020002000101\n' answer 0 3
prints 0 '010102000000\n' '01020002000101\n' answer 0 128
prints 0 '020102400000\n' '02024002000101\n' answer 64 128
says "a message can't be read"
prints 1 '020102000000\n' 'malformed\n' answer 0 128
says "a message can't be read"
prints 1 '01010200000100\n' 'malformed\n' answer 0 3
says 'a message is for another node, or names one outside of the cluster'
prints 1 '010103000000\n' 'refused Stranger\n' answer 0 3
says 'line 3: neither pairs of hex digits nor a dash'
prints 1 '\n\nzz\n' 'bad line 3\n' answer 0 3
prints 0 '010102000000\n' '2>0 AreYouCoordinator\n' show
says 'line 1: neither pairs of hex digits nor a dash'
prints 1 'zz\n' 'bad line 1\n' show
says "a message can't be read"
prints 1 '010102000000\n01020002000102\n' '2>0 AreYouCoordinator\nmalformed\n' show

opening='node 0 Normal coord 0 group 0:1 up - members 0 count 1 pending - hand -\n'
prints 0 'cluster 1 4\n' "$opening" sim
prints 0 'cluster 1 4\ndeliver 0\n' "0 refused NoSuch\n$opening" sim
says 'line 1: not of the form cluster NODES SLOTS, or not the first line'
prints 1 'cluster 0 4\n' 'bad line 1\n' sim
says 'line 3: no such act: chek'
prints 1 'cluster 1 4\n\nchek 0\n' 'bad line 3\n' sim
says 'line 2: no such act: \x1b[31m'
prints 1 'cluster 1 4\n\033[31m 0\n' 'bad line 2\n' sim
says 'line 2: not of the form cut A B'
prints 1 'cluster 1 4\ncut 0\n' 'bad line 2\n' sim
says 'line 1: there is no line cluster NODES SLOTS'
prints 1 '' 'bad line 1\n' sim
says 'line 1: an act in front of the line cluster NODES SLOTS, or behind 65536 acts'
prints 1 'check 0\n' 'bad line 1\n' sim

# The same run, printed by default, with messages by name, and with the nodes in front of each act.
two='node 0 Normal coord 0 group 0:1 up - members 0 count 1 pending - hand -\nnode 1 Normal coord 1 group 1:1 up - members 1 count 1 pending - hand -\n'
asked='cluster 2 4\ncheck 1\ndeliver 0\n'
prints 0 "$asked" "0 ok 0:010101000000\n1 ok 1:01020001000101\n$two" sim
prints 0 "$asked" "0 ok\n    0: 1>0 AreYouCoordinator\n1 ok\n    1: 0>1 Coordinator yes\n$two" sim --names
prints 0 "$asked" "${two}0 ok 0:010101000000\n${two}1 ok 1:01020001000101\n$two" sim --nodes
prints 0 "$asked" "${two}0 ok\n    0: 1>0 AreYouCoordinator\n${two}1 ok\n    1: 0>1 Coordinator yes\n$two" sim --nodes --names

# What arm and crash do to a disk: so many calls pass, then the device fails; a crash ends the arming, and recovering makes four calls
# of a mounting and four of a raise, or six where both slots of the counter are sealed.
up='node 0 Normal coord 0 group 0:2 up - members 0 count 2 pending - hand -\n'
prints 0 'cluster 1 4\narm 0 0\nsubmit 0 0 61\nsubmit 0 0 61\ncrash 0\nrecover 0\n' "0 ok\n1 fault Device\n2 refused Down\n3 ok\n4 ok\n$up" sim
prints 0 'cluster 1 4\narm 0 3\nsubmit 0 0 61\n' '0 ok\n1 fault Device\nnode 0 Down\n' sim
prints 0 'cluster 1 4\narm 0 4\nsubmit 0 0 61\nsubmit 0 0 61\n' '0 ok\n1 ok id 0\n2 fault Device\nnode 0 Down\n' sim
prints 0 'cluster 1 4\narm 0 0\narm 0 1000000\nsubmit 0 0 61\n' '0 ok\n1 ok\n2 ok id 0\nnode 0 Normal coord 0 group 0:1 up - members 0 count 1 pending 0 hand 0:0\n' sim

# The greatest cluster.
every=''
for ((node = 0; node < 128; node++)); do
    every+="node $node Normal coord $node group $node:1 up - members $node count 1 pending - hand -\\n"
done
prints 0 'cluster 128 4\ncut 127 0\n' "0 ok\n$every" sim

# Two runs over one file: what the first was answered, the second finds.
file=$room/store
prints 0 'raise\nformat 4\nmount\nraise\nput 1 6869\n' 'refused Broken\nok\nok\nok 1\nok 0\n' store "$file"
prints 0 'mount\nlist\ndone 0\ndone 0\nlist\n' 'ok\ncount 1 next 1\njob 0 1 6869\nok\nrefused NoSuchJob\ncount 1 next 1\n' store "$file"
says 'line 1: NotFound: there is no such file or folder: No such file or directory (os error 2)'
prints 0 'mount\n' 'refused Device\n' store "$room/none"
says 'line 2: no such request: mout'
prints 1 'mount\nmout\n' 'bad line 2\n' store "$file"
says 'line 1: not of the form put QUEUE HEX [P]'
prints 1 'put 16 61\n' 'bad line 1\n' store "$file"

# Another process has the file locked, and it stays as it was.
exec {lock}<>"$file"
flock "$lock"
prints 0 'mount\nraise\nformat 9\n' 'refused Locked\nrefused Broken\nrefused Locked\n' store "$file"
exec {lock}>&-
prints 0 'mount\nlist\n' 'ok\ncount 1 next 1\n' store "$file"

# What is no regular file, and what may not be read and written.
mkfifo "$room/pipe"
says $'line 1: NotAFile: it is no regular file\ninvite: line 2: NotAFile: it is no regular file'
prints 0 'format 4\nmount\n' 'refused Device\nrefused Device\n' store "$room/pipe"
says $'line 1: Folder: it is a folder: Is a directory (os error 21)\ninvite: line 3: Folder: it is a folder: Is a directory (os error 21)'
prints 0 'format 4\n\nmount\n' 'refused Device\nrefused Device\n' store "$room"
says $'line 1: NotAFile: it is no regular file\ninvite: line 2: NotAFile: it is no regular file'
prints 0 'format 4\nmount\n' 'refused Device\nrefused Device\n' store /dev/full
chmod a-w "$file"
if [ ! -w "$file" ]; then
    says $'line 1: Denied: it may not be read and written: Permission denied (os error 13)\ninvite: line 2: Denied: it may not be read and written: Permission denied (os error 13)'
    prints 0 'mount\nformat 4\n' 'refused Device\nrefused Device\n' store "$file"
fi
chmod u+w "$file"
prints 0 'mount\nlist\n' 'ok\ncount 1 next 1\n' store "$file"
prints 0 '{"nodes":2,"histories":[[{"do":"check","sent":["010100010000"]}],[{"do":"deliver","msg":"010100010000","sent":["01020100000101"]}]]}' 'Run 0 1\n' trace
says $'no order takes all entries: each that is left waits for a message that none sent\nnode 1: entry 0 waits for 010100010000'
prints 1 '{"nodes":2,"histories":[[],[{"do":"deliver","msg":"010100010000","sent":["01020100000101"]}]]}\n' 'NotARun 1 0\n' trace
says $'no order takes all entries: look first at node 1, entry 0\nnode 0: entry 1 waits for 01020100000101\nnode 1: entry 0 (deliver) can\'t be: it would send 01020100000101'
prints 1 '{"nodes":2,"histories":[[{"do":"check","sent":["010100010000"]},{"do":"deliver","msg":"01020100000101","sent":[]}],[{"do":"deliver","msg":"010100010000","sent":[]}]]}' 'NotARun 0 1\n' trace
says $'no order takes all entries: look first at node 1, entry 0\nnode 1: entry 0 (deliver) can\'t be: it is for node 2'
prints 1 '{"nodes":3,"histories":[[{"do":"check","sent":["010100010000","010100020000"]}],[{"do":"deliver","msg":"010100020000","sent":[]}],[]]}' 'NotARun 1 0\n' trace
says $'no order takes all entries: look first at node 0, entry 1\nnode 0: entry 1 (submit) can\'t be: its node refuses it, being Down'
prints 1 '{"nodes":1,"histories":[[{"do":"crash","sent":[]},{"do":"submit","queue":0,"payload":"","sent":[]}]]}' 'NotARun 0 1\n' trace
says $'no order takes all entries: look first at node 0, entry 0\nnode 0: entry 0 (crash) can\'t be: it would send nothing'
prints 1 '{"nodes":2,"histories":[[{"do":"crash","sent":["010100010000"]}],[]]}' 'NotARun 0 0\n' trace
prints 1 '{"nodes":1,"histories":[[{"do":"none","sent":[]},{"do":"none"}]]}\n' 'bad trace 0 1\n' trace
prints 1 '' 'bad trace\n' trace

# A run in files: the nodes of each come behind those of the files before it.
echo '{"nodes":1,"histories":[[{"do":"check","sent":["010100010000"]},{"do":"deliver","msg":"01020100000101","sent":[]}]]}' >"$room/asks"
echo '{"nodes":1,"histories":[[{"do":"deliver","msg":"010100010000","sent":["01020100000101"]}]]}' >"$room/answers"
echo '{"nodes":1,"histories":[[]]}' >"$room/rests"
echo '{"nodes":2,"histories":[[],[{"do":"crash","sent":[]}]]}' >"$room/falls"
echo '{"nodes":2,"histories":[[],[{"do":"none","sent":[]},{"do":"none"}]]}' >"$room/bad"
printf '{"nodes":128,"histories":[%s[]]}' "$(printf '[],%.0s' {1..127})" >"$room/most"
prints 0 '' 'Run 0 1 0\n' trace "$room/asks" "$room/answers"
prints 0 '' 'Run 1 3\n' trace "$room/falls" "$room/falls"
says $'no order takes all entries: look first at node 0, entry 0\nnode 0: entry 0 (deliver) can\'t be: it is for node 1\nnode 1: entry 0 (check) can\'t be: it would send 010101000000'
prints 1 '' 'NotARun 0 0\n' trace "$room/answers" "$room/asks"
says $'no order takes all entries: each that is left waits for a message that none sent\nnode 0: entry 1 waits for 01020100000101'
prints 0 '' 'Ongoing 0\n' trace "$room/asks" --ongoing "$room/rests"
says "$room/bad: history 1: entry 1 can't be read"
prints 1 '' 'bad trace 3 1\n' trace "$room/falls" "$room/bad" "$room/in"
says "$room/in: this is no trace"
prints 1 '' 'bad trace\n' trace "$room/asks" "$room/in" "$room/bad"
says 'the files have more than 128 nodes'
prints 1 '' 'bad trace\n' trace "$room/most" "$room/asks"
prints 0 '' 'Run\n' trace "$room/most"
says "$room/none: can't read: No such file or directory (os error 2)"
prints 1 '' '' trace "$room/asks" "$room/none"
says "$room: can't read: Is a directory (os error 21)"
prints 1 '' '' trace "$room"

prints 0 'cluster 2 8\ncheck 0\ndeliver 0\n' '{"histories":[[{"do":"check","sent":["010100010000"]}],[{"do":"deliver","msg":"010100010000","sent":["01020100000101"]}]],"nodes":2,"order":"0 - 1 0"}\n' record
says 'line 2: no such act: chek'
prints 1 'cluster 2 8\nchek 0\n' 'bad line 2\n' record
prints 1 '{"nodes":1,"histories":[[{"do":"none","sent":[]},{"do":"none"}]]}\n' 'bad trace 0 1\n' trace --turns
prints 0 'cluster 1 4\nlinks 1\n0 clock check\n0 clock merge\n' '{"histories":[[{"do":"check","sent":[]},{"do":"merge","sent":[]}]],"nodes":1}\n' threads
prints 0 'cluster 1 4\nlinks 1\n0 clock check\n0 clock merge\n' '{"histories":[[{"do":"check","sent":[]},{"do":"merge","sent":[]}]],"nodes":1,"order":"0 - 0 -"}\n' threads --order

# Plans that can't be read.
says 'line 1: there is no line cluster NODES SLOTS'
prints 1 '' 'bad line 1\n' threads
says 'line 2: there is no line cluster NODES SLOTS'
prints 1 '\n' 'bad line 2\n' threads
says 'line 2: not of the form cluster NODES SLOTS'
prints 1 '\ncluster 0 4\n' 'bad line 2\n' threads
says 'line 1: not of the form cluster NODES SLOTS'
prints 1 'links 1\ncluster 1 4\n' 'bad line 1\n' threads
says 'line 2: there is no line links CAPACITY'
prints 1 'cluster 1 4\n' 'bad line 2\n' threads
says 'line 2: not of the form links CAPACITY'
prints 1 'cluster 1 4\nlinks 0\n' 'bad line 2\n' threads
says 'line 4: not of the form links CAPACITY'
prints 1 'cluster 1 4\n\n\n0 clock check\n' 'bad line 4\n' threads
says 'line 3: no such node: 2'
prints 1 'cluster 2 4\nlinks 1\n2 clock check\n' 'bad line 3\n' threads
says 'line 3: no such node: links'
prints 1 'cluster 2 4\nlinks 1\nlinks 1\n' 'bad line 3\n' threads
says 'line 4: no node is named'
prints 1 'cluster 1 4\nlinks 1\n0 clock check\n 0 clock check\n' 'bad line 4\n' threads
says 'line 3: no worker is named'
prints 1 'cluster 1 4\nlinks 1\n0\n' 'bad line 3\n' threads
says 'line 3: no such worker: clok'
prints 1 'cluster 1 4\nlinks 1\n0 clok check\n' 'bad line 3\n' threads
says 'line 3: no such worker: \x1b[31m'
prints 1 'cluster 1 4\nlinks 1\n0 \033[31m check\n' 'bad line 3\n' threads
says 'line 3: not of the form N intake J, where J is another node'
prints 1 'cluster 2 4\nlinks 1\n0 intake 0\n' 'bad line 3\n' threads
says 'line 3: no timer is named'
prints 1 'cluster 1 4\nlinks 1\n0 clock\n' 'bad line 3\n' threads
says 'line 3: no such timer: chek'
prints 1 'cluster 1 4\nlinks 1\n0 clock chek\n' 'bad line 3\n' threads
says 'line 3: not of the form N clock TIMER'
prints 1 'cluster 1 4\nlinks 1\n0 clock check 1\n' 'bad line 3\n' threads
says 'line 3: no such order: check'
prints 1 'cluster 1 4\nlinks 1\n0 operator check\n' 'bad line 3\n' threads
says 'line 3: not of the form N operator submit QUEUE HEX [P]'
prints 1 'cluster 1 4\nlinks 1\n0 operator submit 16 -\n' 'bad line 3\n' threads
says 'line 3: not of the form N operator finish ORIGIN ID'
prints 1 'cluster 1 4\nlinks 1\n0 operator finish 0\n' 'bad line 3\n' threads
says 'line 3: not of the form N operator arm K'
prints 1 'cluster 1 4\nlinks 1\n0 operator arm\n' 'bad line 3\n' threads
says 'line 3: not of the form N operator crash [HEX]'
prints 1 'cluster 1 4\nlinks 1\n0 operator crash 0 a5\n' 'bad line 3\n' threads
says 'line 3: not of the form N operator recover'
prints 1 'cluster 1 4\nlinks 1\n0 operator recover 0\n' 'bad line 3\n' threads

# A history has 65,536 turns at most; that a run is unfinished is no flaw of a line, and is printed alone.
prints 1 "cluster 1 4\nlinks 1\n$(printf '0 clock accept\\n%.0s' {1..65537})" 'unfinished 0 clock\n' threads

full '010102000000\n' answer 0 3
full '010102000000\n' show
full 'cluster 1 4\n' sim
full '' trace
full 'cluster 1 4\n' record
full 'cluster 1 4\nlinks 1\n' threads
full '' trace --turns
full 'mount\n' store "$file"

folder answer 0 3
folder show
folder sim
folder trace
folder threads
folder trace --turns
folder store "$file"

tally
