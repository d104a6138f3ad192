# To be sourced by a script of tests: what it counts, and its last line. A script in Python has tally.py.
passed=0
failed=0

# mark PROBLEM NAME..: counts a check. A problem that is no empty text is a failure, and is printed with the name.
mark() {
    local problem=$1
    shift
    if [ -z "$problem" ]; then
        passed=$((passed + 1))
    else
        failed=$((failed + 1))
        echo "FAILED $*: $problem"
    fi
}

# has NAME FILE [LINE..]: a check whether a file has just these lines
has() {
    local name=$1 found
    found=$(cat "$2")
    shift 2
    if [ "$found" = "$(IFS=$'\n' && echo "$*")" ]; then mark '' "$name"; else mark "it has '${found:0:400}'" "$name"; fi
}

# expect NAME STATUS: a check whether a call ended so, whose status is in $status
expect() {
    if [ "$status" -eq "$2" ]; then mark '' "$1"; else mark "status $status in place of $2" "$1"; fi
}

# left_out WHY: ends a script that can't try what it is for, as one that made no check and that didn't fail
left_out() {
    echo "${0##*/}: $1"
    echo '0 passed, 0 failed'
    exit 0
}

# a_program PROGRAM: its path, in $program. Where there is none the script ends as one that failed.
a_program() {
    program=$(readlink -f "$1")
    [ -x "$program" ] && return
    echo "${0##*/}: there is no program $1"
    echo '0 passed, 1 failed'
    exit 1
}

# tally: the last line. It fails where a check failed, or where none was made.
tally() {
    echo "$passed passed, $failed failed"
    [ "$failed" -eq 0 ] && [ "$passed" -gt 0 ]
}
