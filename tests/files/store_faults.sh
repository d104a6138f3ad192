#!/usr/bin/env bash
# Fails each call of the system in turn that `invite store` makes of its file, and ends the program before each: then another process has to
# find what was acknowledged, with or without the one command in doubt.
# Called with the program, as in: tests/files/store_faults.sh crates/invite/out/invite. With --all behind it each call fails with each of three errors,
# and the program is also ended in the middle of each write; else the errors take turns. It needs a C compiler, cc, and says so where there is
# none. Its last line counts the sessions.
set -u
is_whole=${2-}
here=$(cd "$(dirname "${BASH_SOURCE[0]}")" && pwd)
source "$here/../common/tally.sh"
source "$here/store_model.sh"
a_program "$1"
command -v cc >/dev/null || left_out 'there is no C compiler cc, so no call was failed'
room=$(mktemp -d) || exit 1
trap 'rm -rf "$room"' EXIT
cc -shared -fPIC -O1 -o "$room/faults.so" "$here/../shim/faults.c" -ldl || exit 1
file=$room/store

# with AT FAULT: runs `store` on $room/in, with this fault at this call; $status, $room/out, the number of $calls and the $name of the one
# that failed are what came of it
with() {
    rm -f "$room/count"
    {
        FAULT_FILE=$file FAULT_AT=$1 FAULT=$2 FAULT_COUNT=$room/count LD_PRELOAD=$room/faults.so \
            "$program" store "$file" <"$room/in" >"$room/out"
        status=$?
    } 2>/dev/null
    read -r calls name 2>/dev/null <"$room/count" || calls=none name=''
}

# found: what another process finds in the file, in $found
found() {
    found=$(printf 'mount\nlist\n' | "$program" store "$file" 2>/dev/null)
}

# What each line is answered where nothing fails, what is shown after it, and how many calls were made by its end.
session=(mount raise raise 'put 1 6869' 'put 2 -' 'done 0' 'put 15 61' 'done 1' raise compact 'put 0 62')
answers=() states=() ends=()
learn() {
    local line k=0
    begin 4
    show
    states=("$shown")
    : >"$room/in"
    for line in "${session[@]}"; do
        apply "$line"
        show
        answers+=("$answer")
        states+=("$shown")
        echo "$line" >>"$room/in"
        cp "$room/fresh" "$file"
        with 0 none
        ends+=("$calls")
        [ "$(cat "$room/out")" = "$(printf '%s\n' "${answers[@]}")" ] || problem="line $k is answered otherwise"
        k=$((k + 1))
    done
}

# kept K WHAT: the file holds what the first K lines leave, or with one more. Else a problem is named.
kept() {
    local more=$(($1 + 1))
    [ "$more" -le "${#session[@]}" ] || more=$1
    found
    [ "$found" = $'ok\n'"${states[$1]}" ] || [ "$found" = $'ok\n'"${states[$more]}" ] || problem="after $1 lines there is: $found"
}

# A call fails: the lines before are answered, one is refused, and nothing more is done.
fail_at() {
    local at=$1 fault=$2 line k=0 want=''
    problem=''
    cp "$room/fresh" "$file"
    with "$at" "$fault"
    mapfile -t lines <"$room/out"
    while [ "$k" -lt "${#session[@]}" ] && [ "${lines[$k]-}" = "${answers[$k]}" ]; do
        k=$((k + 1))
    done
    if [ "$k" -lt "${#session[@]}" ]; then
        want='refused Device'
        for line in "${lines[@]:$k}"; do
            [ "$line" = "$want" ] || problem="line $k is answered $line"
            want='refused Broken'
        done
        [ "$at" -le "${ends[$k]}" ] || problem="line $k fails after its calls"
        [ "$k" -eq 0 ] || [ "$at" -gt "${ends[$((k - 1))]}" ] || problem="line $k fails before its calls"
        [ "${#lines[@]}" -eq "${#session[@]}" ] || problem='a line is left out'
    fi
    # An interrupted call is made again. A look at the length is none that a system interrupts.
    [ "$fault" != 4 ] || [ "$name" = statx ] || [ "$name" = lseek ] || [ "$k" -eq "${#session[@]}" ] || problem="line $k fails, interrupted"
    [ "$status" -eq 0 ] || problem="status $status"
    kept "$k"
    mark "$problem" "error $fault at call $at, $name"
}

# The program is ended before a call, or within it: nothing is printed, and the lines whose calls were all made are kept.
end_at() {
    local at=$1 fault=$2 k=0
    problem=''
    cp "$room/fresh" "$file"
    with "$at" "$fault"
    while [ "$k" -lt "${#session[@]}" ] && [ "${ends[$k]}" -lt "$at" ]; do
        k=$((k + 1))
    done
    [ "$status" -eq 137 ] || problem="status $status"
    [ ! -s "$room/out" ] || problem='it printed something'
    kept "$k"
    mark "$problem" "$fault at call $at"
}

# A format that is cut off leaves no file, one that isn't formatted, or the empty store, and a second one makes the store.
format_at() {
    local at=$1 fault=$2
    problem=''
    rm -f "$file"
    echo 'format 4' >"$room/in"
    with "$at" "$fault"
    found
    case $found in
        $'refused Device\nrefused Broken' | $'refused TooSmall\nrefused Broken' | $'refused NotFormatted\nrefused Broken' | $'ok\ncount 0 next 0') ;;
        *) problem="it leaves $found" ;;
    esac
    if [ "$(cat "$room/out")" = ok ] && [ "$found" != $'ok\ncount 0 next 0' ]; then
        problem="it was acknowledged, and it leaves $found"
    fi
    [ "$(echo 'format 4' | "$program" store "$file")" = ok ] || problem='a second one fails'
    found
    [ "$found" = $'ok\ncount 0 next 0' ] || problem="a second one leaves $found"
    mark "$problem" "$fault at call $at of a format"
}

# EIO, ENOSPC and EINTR
errors=(5 28 4)
ends_by=(kill)
[ "$is_whole" != --all ] || ends_by+=(torn)

# errors_at AT: the errors with which this call fails
errors_at() {
    if [ "$is_whole" = --all ]; then
        echo "${errors[@]}"
    else
        echo "${errors[$(($1 % 3))]}"
    fi
}

echo 'format 4' >"$room/in"
rm -f "$file"
with 0 none
formatting=$calls
problem=''
[ "$formatting" -gt 0 ] 2>/dev/null || problem='no call of the program is seen'
mark "$problem" 'the shim'
[ -z "$problem" ] || { tally; exit 1; }
cp "$file" "$room/fresh"
for ((at = 1; at <= formatting; at++)); do
    for fault in $(errors_at "$at") "${ends_by[@]}"; do
        format_at "$at" "$fault"
    done
done

problem=''
learn
mark "$problem" 'the session'
printf '%s\n' "${session[@]}" >"$room/in"
for ((at = 1; at <= ends[-1]; at++)); do
    for fault in $(errors_at "$at"); do
        fail_at "$at" "$fault"
    done
    for fault in "${ends_by[@]}"; do
        end_at "$at" "$fault"
    done
done
# A format over a store in use: whenever it fails or is cut off, the name leads to that store, of which no byte was written, or to the new one, which
# is whole, and no write of it is unsynced (the shim sees to that). So no crash leaves anything else.
begin 4
printf '%s\n' "format 4" "${session[@]}" >"$room/in"
cp "$room/fresh" "$file"
with 0 none
cp "$file" "$room/used"
echo 'format 5' >"$room/in"
rm -f "$file"
with 0 none
cp "$file" "$room/new"
replace_at() {
    local at=$1 fault=$2
    problem=''
    cp "$room/used" "$file"
    [ "$((at % 2))" -eq 0 ] || head -c 70000 /dev/urandom >"$file.unfinished"
    with "$at" "$fault"
    cmp -s "$file" "$room/used" || cmp -s "$file" "$room/new" || problem='another file is left'
    case $fault in
        kill | torn) [ "$status" -eq 137 ] && [ ! -s "$room/out" ] || problem="status $status" ;;
        *)
            [ "$status" -eq 0 ] || problem="status $status"
            if [ "$(cat "$room/out")" = ok ]; then
                cmp -s "$file" "$room/new" || problem='it was acknowledged, and the old file is left'
            fi
            [ "$((at % 2))" -eq 1 ] || [ ! -e "$file.unfinished" ] || problem='the file beside it is left'
            ;;
    esac
    rm -f "$file.unfinished"
    mark "$problem" "$fault at call $at of a format over a store, $name"
}
problem=''
cp "$room/used" "$file"
with 0 none
replacing=$calls
cmp -s "$file" "$room/new" || problem='it makes another file'
[ "$replacing" -gt "$formatting" ] || problem="it makes $replacing calls"
mark "$problem" 'a format over a store'
for ((at = 1; at <= replacing; at++)); do
    for fault in $(errors_at "$at") "${ends_by[@]}"; do
        replace_at "$at" "$fault"
    done
done
echo "$formatting calls of a format, $replacing of one over a store and ${ends[-1]} of a session were failed"
tally
