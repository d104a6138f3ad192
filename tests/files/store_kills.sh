#!/usr/bin/env bash
# Starts `invite store` over one file again and again and ends it by SIGKILL at a random moment; after each session another process has to
# find what was acknowledged. What a session prints is acknowledged. One that is ended before it prints may have done any first part of what
# it was asked.
# Called with the program and the number of sessions, as in: tests/files/store_kills.sh crates/invite/out/invite 10000. Its last line counts them.
set -u
sessions=${2:-200}
here=$(cd "$(dirname "${BASH_SOURCE[0]}")" && pwd)
source "$here/../common/tally.sh"
source "$here/store_model.sh"
a_program "$1"

room=$(mktemp -d) || exit 1
trap 'rm -rf "$room"' EXIT
file=$room/store
mkfifo "$room/never"
exec {never}<>"$room/never"

# A pause of so many microseconds, without a process of its own.
pause() {
    local seconds
    printf -v seconds '0.%06d' "$1"
    read -r -t "$seconds" -u "$never" _
}

# choose: a line that changes the store, in $line
choose() {
    local job
    case $((RANDOM % 10)) in
        0 | 1) line=raise ;;
        2) line=compact ;;
        3 | 4 | 5)
            job=${pending[RANDOM % (${#pending[@]} + 1)]-$next}
            line="done ${job%% *}"
            ;;
        *) line="put $((RANDOM % 16)) $(printf '%02x%02x' $((RANDOM % 256)) $((RANDOM % 256)))" ;;
    esac
}

# ask: makes a session of one to twelve lines and what it prints, and in $states what is shown after each
ask() {
    local many=$((RANDOM % 12 + 1)) k
    lines=(mount) text=ok
    show
    states=("$shown")
    for ((k = 0; k < many; k++)); do
        choose
        apply "$line"
        show
        lines+=("$line")
        text+=$'\n'$answer
        states+=("$shown")
    done
}

# live MICROSECONDS: runs the session and ends it after so long, or once it ended; what it printed is in $printed
live() {
    {
        printf '%s\n' "${lines[@]}" >"$room/in"
        : >"$room/out"
        "$program" store "$file" <"$room/in" >"$room/out" &
        pause "$1"
        kill -KILL $!
        wait $!
        status=$?
    } 2>/dev/null
    printed=$(cat "$room/out")
}

# restore STATE: the model holds what was found
restore() {
    local head
    mapfile -t pending <<<"$1"
    head=${pending[0]}
    pending=("${pending[@]:1}")
    pending=("${pending[@]#job }")
    read -r _ count _ next <<<"$head"
}

begin 8
[ "$(echo 'format 8' | "$program" store "$file")" = ok ] || exit 1
killed=0 first=0 all=0 middle=0
longest=4000
for ((session = 1; session <= sessions; session++)); do
    ask
    live $(((RANDOM * 32768 + RANDOM) % longest))
    found=$(printf 'mount\nlist\n' | "$program" store "$file")
    problem=''
    if [ "$printed" = "$text" ]; then
        # all is acknowledged
        [ "$found" = $'ok\n'"${states[-1]}" ] || problem='what was acknowledged is lost'
        [ "$status" -eq 0 ] || [ "$status" -eq 137 ] || problem="status $status"
    elif [ "$status" -ne 137 ] || [ -n "$printed" ]; then
        problem="status $status, and it printed $printed"
    else
        killed=$((killed + 1))
        problem='it holds what no first part of the session leaves'
        for k in "${!states[@]}"; do
            if [ "$found" = $'ok\n'"${states[$k]}" ]; then
                problem=''
                break
            fi
        done
        case $k in
            0) first=$((first + 1)) ;;
            $((${#states[@]} - 1))) all=$((all + 1)) ;;
            *) middle=$((middle + 1)) ;;
        esac
    fi
    # About half of the sessions are to be ended.
    if [ "$printed" = "$text" ]; then longest=$((longest * 95 / 100 + 1)); else longest=$((longest * 105 / 100 + 1)); fi
    mark "$problem" "${lines[*]}: $found"
    [ -z "$problem" ] || break
    restore "${found#ok$'\n'}"
done
echo "$killed of $sessions sessions were ended before they printed: $first had done nothing, $middle a part, $all all of it"
tally
