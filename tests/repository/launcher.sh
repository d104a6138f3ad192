#!/usr/bin/env bash
# The script `invite`, over a command rt that proves nothing: what it asks of rt and when, what it says where a crate is refused, what it leaves
# where it is interrupted, and what it keeps of a program that isn't proved. Its last line counts the checks. (What it prints while there is no program,
# tests/program/help.sh tries.)
set -u
top=$(readlink -f "$(dirname "${BASH_SOURCE[0]}")/../..")
source "$top/tests/common/tally.sh"
room=$(mktemp -d) || exit 1
trap 'rm -rf "$room"' EXIT

# A repository of crates of a file each, and an rt that writes down what it is asked for and what lies where it is, and says what rt says.
mkdir -p "$room/bin" "$room/repo/crates" "$room/tmp"
cp "$top/invite" "$top/crates.txt" "$top/HANDLES" "$room/repo"
mkdir "$room/repo/docs" && cp -R "$top/docs/help" "$room/repo/docs"
for crate in $(grep -oE '^[a-z_]+' "$top/crates.txt"); do
    mkdir -p "$room/repo/crates/$crate/"{src,specs,proofs,must-fail}
    touch "$room/repo/crates/$crate/src/lib.rt" "$room/repo/crates/$crate/must-fail/x.edit"
done
touch "$room/repo/crates/invite/"{args,stdin,stdout}
cat >"$room/bin/rt" <<'RT'
#!/usr/bin/env bash
[ "$1" != version ] || { echo a kit; exit; }
if [ "$1" = try ]; then
    # as rt try: a folder of its own in that for temporary files, in which the program is while it runs, and is run on these words; it says what came of it
    echo "$1 in ${PWD##*/}" >>"$ROOM/log"
    [ "${REFUSED-}" != try ] || { echo 'src/main.rt: not a word of the language'; exit 1; }
    own=$(mktemp -d) && mkdir "$own/native"
    sleep "${NAP-0.02}"
    [ -z "${EDITED-}" ] || touch "$ROOM/repo/crates/$EDITED/src/lib.rt"
    printf '%s\n' '#!/usr/bin/env bash' 'case $1 in' 'show) exit SHOWN ;; trace) cat "$2" >"$ROOM/traced" ;; *) echo "unproved $*"; cat ;; esac' >"$own/native/program"
    if [ "${REFUSED-}" = program ]; then sed -i s/SHOWN/3/ "$own/native/program"; else sed -i s/SHOWN// "$own/native/program"; fi
    [ "${REFUSED-}" != none ] && chmod 700 "$own/native/program"
    bash "$own/native/program" "${@:3}" </dev/null
    status=$?
    rm -r "$own"
    echo "checked: ended status=$status"
    [ "${REFUSED-}" != status ] || exit 4
    exit "$status"
fi
echo "$*" >>"$ROOM/log"
find . -type f | sort >"$ROOM/files"
cp crates.txt HANDLES "$ROOM"
stat -c %a "$PWD/.." "$TMPDIR" >"$ROOM/modes"
sleep "${NAP-0.02}"
[ "${REFUSED-}" != all ] || { echo 'rt: a file that no check reads' >&2; echo '0 passed, 1 failed'; exit 2; }
for crate in $(grep -oE '^[a-z_]+' crates.txt); do
    mkdir "crates/$crate/out"
    [ "$crate" != "${SLOW-}" ] || sleep 16
    if [ "$crate" = "${REFUSED-}" ]; then
        printf '== %s\na goal of %s is open\nrt: %s NOT PROVED\n' "$crate" "$crate" "$crate"
        lost=$crate
    elif [ -n "${lost-}" ]; then
        echo "rt: $crate NOT PROVED: its library $lost failed"
    elif [ "$crate" = "${KEPT-}" ]; then
        echo "rt: $crate is kept: an earlier run on this machine proved the same files over the same libraries"
    else
        printf '== %s\nfn f: proved\nrt: %s proved\n' "$crate" "$crate"
    fi
done
[ -z "${lost-}" ] || { echo "rt: FAILED: $lost"; echo '34 passed, 1 failed'; exit 1; }
[ -z "${EDITED-}" ] || touch "$ROOM/repo/crates/$EDITED/src/lib.rt"
printf '%s\n' '#!/usr/bin/env bash' 'echo "$@"; cat' >crates/invite/out/invite
chmod +x crates/invite/out/invite
[ "${REFUSED-}" != program ] || { echo 'rt: invite: the program ended with status 1, and not 0'; echo '34 passed, 1 failed'; exit 1; }
echo end >>"$ROOM/log"
RT
chmod +x "$room/bin/rt"

# below CRATE..: these crates and all that they stand on, by crates.txt
below() {
    local before='' now="$*"
    while [ "$before" != "$now" ]; do
        before=$now
        now=$(grep -E "^(${now// /|})[ :]" "$top/crates.txt" | sed 's/^\([a-z_]*\)[^:]*:/\1/' | tr -s ' ' '\n' | cat - <(tr ' ' '\n' <<<"$now") |
            grep -xF "$(grep -oE '^[a-z_]+' "$top/crates.txt")" | sort -u | paste -sd' ')
    done
    tr ' ' '\n' <<<"$now"
}
mapfile -t crates < <(below invite)

# call COMMAND..: runs it in the repository; $status is its status, $room/out and err what it prints, log what rt was asked for
call() {
    : >"$room/log"
    (cd "$room/repo" && ROOM=$room TMPDIR=$room/tmp PATH=$room/bin:$PATH "$@" <<<input >"$room/out" 2>"$room/err")
    status=$?
    has "$*: nothing is left" <(ls -A "$room/tmp")
}

# provers: how many processes of the command rt there are
provers() {
    local line found=0
    for line in /proc/[0-9]*/cmdline; do
        ! tr '\0' ' ' 2>/dev/null <"$line" | grep -qF "$room/bin/rt" || found=$((found + 1))
    done 2>/dev/null
    echo "$found"
}

# anew: the program isn't built
anew() {
    rm -rf "$room/repo/crates/invite/out"
}

call ./invite answer 0 3
expect 'the first call' 0
has 'the first call prints' "$room/out" 'answer 0 3' input
has 'what rt is asked for' "$room/log" ci end
has 'the crates that rt finds' <(sort "$room/crates.txt") "$(grep -E "^($(IFS='|' && echo "${crates[*]}"))[ :]" "$top/crates.txt" | sort)"
has 'the handles that rt finds' "$room/HANDLES" "$(cat "$top/HANDLES")"
has 'the files that rt finds' "$room/files" \
    "$(printf '%s\n' ./HANDLES ./crates.txt ./crates/invite/{args,stdin,stdout} "${crates[@]/%//src/lib.rt}" | sed 's,^[^.],./crates/&,' | sort)"
has 'others may pass, and see nothing' "$room/modes" 711 711
has 'each crate is named' <(sed -n 's/^invite: proved \([a-z_]*\) (.*/\1/p' "$room/err" | sort) "${crates[@]}"
has 'the last is named' <(grep -c "^invite: proved invite (${#crates[@]} of ${#crates[@]}), 0 min [0-9]* s so far" "$room/err") 1
has 'no crate stands before one that it uses' <(
    seen=' '
    while IFS= read -r line; do
        seen+="${line%%[: ]*} "
        for need in ${line#*:}; do [[ " ${crates[*]} " != *" $need "* || $seen == *" $need "* ]] || echo "$need"; done
    done <"$room/crates.txt"
)

call ./invite show
expect 'the second call' 0
has 'the second call proves nothing' "$room/log"
has 'the second call says nothing' "$room/err"

for file in crates/wire_msg/src/lib.rt crates/wire_msg/proofs/F.antt crates.txt HANDLES; do
    touch "$room/repo/$file"
    call ./invite show
    has "$file changed" "$room/log" ci end
done
for file in crates/thread_tests/src/lib.rt crates/wire_msg/must-fail/x.edit; do
    touch "$room/repo/$file"
    call ./invite show
    has "$file, which the program does not stand on" "$room/log"
done

# a source that changes while the program is built: the next call builds again
anew
EDITED=node_core call ./invite show
call ./invite show
has 'a source that changed meanwhile' "$room/log" ci end
call ./invite show
has 'and no more' "$room/log"

ln -s "$room/repo/invite" "$room/link"
anew
call "$room/link" show
has 'through a link' "$room/out" show input

# what takes long: a word at least every 15 seconds, before the first crate and at one. Where the machine lets a sleep last longer than it is to, the times
# that are told may lie further apart: then it is tried again, at most twice.
for again in 1 2 0; do
    anew
    NAP=16 SLOW=node_core KEPT=job_model call ./invite show
    told=$(sed -nE "s/^invite: (looking through the sources of ${#crates[@]} crates|proved [0-9]+ of ${#crates[@]} crates, at work on node_core), 0 min ([0-9]+) s so far.*/\\2/p" \
        "$room/err" | paste -sd' ')
    [[ ! $told =~ ^1[5-6]\ 3[0-3]$ ]] || break
    [ "$again" -eq 0 ] || echo "played again: what takes long ($told)"
done
has 'at least every 15 seconds' <([[ ! $told =~ ^1[5-6]\ 3[0-3]$ ]] || echo yes) yes
has 'while the sources are looked through' <(grep -cE "^invite: looking through the sources of ${#crates[@]} crates, [0-9]+ min [0-9]+ s so far" "$room/err" | sed 's/^[1-9][0-9]*$/some/') some
has 'while a crate is proved' <(grep -cE "^invite: proved [0-9]+ of ${#crates[@]} crates, at work on node_core, [0-9]+ min [0-9]+ s so far" "$room/err" | sed 's/^[1-9][0-9]*$/some/') some
has 'a crate that was proved before' <(grep -cE '^invite: job_model was proved by an earlier run \(' "$room/err") 1

for name in node_core invite; do
    anew
    REFUSED=$name call ./invite show
    expect "$name is refused" 1
    has "$name: what is said" <(tail -n 4 "$room/err") "== $name" "a goal of $name is open" "rt: $name NOT PROVED" 'invite: the program was not built'
    has "$name: what is printed" "$room/out"
    has "$name: what is built" <(find "$room/repo/crates/invite" -name 'invite*' -type f)
done
anew
REFUSED=all call ./invite show
expect 'rt comes to no crate' 1
has 'rt comes to no crate' <(tail -n 3 "$room/err") 'rt: a file that no check reads' '0 passed, 1 failed' 'invite: the program was not built'
REFUSED=program call ./invite show
expect 'the program ends badly' 1
has 'the program ends badly' <(tail -n 3 "$room/err") 'rt: invite: the program ended with status 1, and not 0' '34 passed, 1 failed' 'invite: the program was not built'
has 'a program that ends badly is not built' <(find "$room/repo/crates/invite" -name 'invite*' -type f)

anew
# shellcheck disable=SC2016 # the inner shell expands it
NAP=600 call bash -c './invite show & until [ -s "$ROOM/log" ]; do sleep 0.1; done; kill $!; wait $!'
expect 'an interrupted call' 130
has 'no proof went on' <(grep -c end "$room/log") 0
for _ in {1..600}; do
    [ "$(provers)" -gt 0 ] || break
    sleep 0.1
done
has 'no proof goes on' <(provers) 0

# Without a proof: the program that rt runs is kept, and is run from there, until a source that it is built from changes.
anew
call ./invite --current
expect 'no program' 1
call ./invite --unproved answer 0 3
expect 'without a proof' 0
has 'without a proof: what is printed' "$room/out" 'unproved answer 0 3' input
has 'without a proof: what rt is asked for' "$room/log" 'try in invite'
has 'without a proof: what rt ran it on' "$room/traced" '{"nodes":1,"histories":[[]]}'
has 'without a proof: what is said' "$room/err" 'invite: building the program without proofs, which takes a minute or two' 'invite: the program is built' \
    'invite: nothing is proved of this run: checks at run time stand in place of the proofs'
call ./invite --current
has 'it is the one that is there, and has its name' "$room/out" "$room/repo/crates/invite/out/unproved/invite"
NAP=60 call timeout 20 ./invite --unproved answer 1 3
has 'the second call builds nothing' "$room/log"
has 'the second call prints' "$room/out" 'unproved answer 1 3' input
has 'the second call says' "$room/err" 'invite: nothing is proved of this run: checks at run time stand in place of the proofs'
for file in crates/wire_msg/src/lib.rt crates/wire_msg/specs/F.antt crates.txt HANDLES; do
    touch "$room/repo/$file"
    call ./invite --unproved answer
    has "without a proof: $file changed" "$room/log" 'try in invite'
done
for file in crates/thread_tests/src/lib.rt crates/wire_msg/must-fail/x.edit crates/wire_msg/proofs/F.antt crates/wire_msg/README.md; do
    touch "$room/repo/$file"
    call ./invite --unproved answer
    has "without a proof: $file, which is no part of it" "$room/log"
done
EDITED=node_core call ./invite --unproved answer
touch "$room/repo/crates/node_core/src/lib.rt"
EDITED=node_core call ./invite --unproved answer
call ./invite --current
expect 'without a proof: a source changed meanwhile' 1
call ./invite --unproved answer
has 'without a proof: it is built again' "$room/log" 'try in invite'
call ./invite show
has 'a proof is asked for all the same' "$room/log" ci end
call ./invite --current
has 'the proved one is the one that is there' "$room/out" "$room/repo/crates/invite/out/invite"

# It can't be built: status 1, and no program is kept in place of the old one.
for name in try program status none; do
    anew
    REFUSED=$name call timeout 60 ./invite --unproved answer
    expect "without a proof, refused: $name" 1
    has "without a proof, refused: $name: what is printed" "$room/out"
    has "without a proof, refused: $name: what is said" <(tail -n 1 "$room/err") 'invite: the program was not built'
    has "without a proof, refused: $name: what is kept" <(find "$room/repo/crates/invite/out" -type f 2>/dev/null)
done
anew
REFUSED=try call ./invite --unproved answer
has 'what rt says of it' <(tail -n 2 "$room/err") 'src/main.rt: not a word of the language' 'invite: the program was not built'
# shellcheck disable=SC2016 # the inner shell expands it
NAP=600 call bash -c './invite --unproved answer & until [ -s "$ROOM/log" ]; do sleep 0.1; done; kill $!; wait $!'
expect 'without a proof, interrupted' 130
for _ in {1..600}; do
    [ "$(provers)" -gt 0 ] || break
    sleep 0.1
done
has 'no build goes on' <(provers) 0

# There is no kit: each call says where one is from, and that a package needs none. One that names no work prints what the program would.
for words in show '--unproved show' '' --unproved; do
    anew
    # shellcheck disable=SC2086 # words
    (cd "$room/repo" && PATH=/usr/bin:/bin ./invite $words <<<input >"$room/out" 2>"$room/err")
    status=$?
    if ! PATH=/usr/bin:/bin command -v rt >/dev/null; then
        case $words in
            *show) expect "no rt, $words" 1 && has "no rt, $words: what is printed" "$room/out" ;;
            *) expect "no rt, $words" 2 && has "no rt, $words: what is printed" "$room/out" "$(cat "$top/docs/help/_none.txt")" ;;
        esac
        has "no rt is named, $words" <(grep -cE '^invite: there is no command rt, .* Rattle kit, 13b or later, from ' "$room/err") 1
        has "a package is named, $words" <(grep -c '^invite: a package of Dumgerok needs no kit: packaging/release makes it' "$room/err") 1
    fi
done

tally
