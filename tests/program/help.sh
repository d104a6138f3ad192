#!/usr/bin/env bash
# What the program says of itself stands in docs/help, from where the script `invite` prints it while the program isn't built: _none.txt (no word), _version.txt,
# _help.txt, and COMMAND.txt of each command. Called with the program, as in: tests/program/help.sh crates/invite/out/invite. Each file has what the program prints, no
# command is without one, and the script prints the same and ends so, in a second of a processor at most, where there is neither a kit nor a program. Its last line counts the checks.
# `help.sh --write PROGRAM` writes the files.
set -u
top=$(readlink -f "$(dirname "${BASH_SOURCE[0]}")/../..")
source "$top/tests/common/tally.sh"
words=$1
[ "$words" != --write ] || shift
a_program "$1"
room=$(mktemp -d) || exit 1
trap 'rm -rf "$room"' EXIT

mapfile -t commands < <("$program" --help | awk '/^Commands:/ { on = 1; next } /^[^ ]/ { on = 0 } on && /^  [a-z]/ { print $1 }')
# The files, and the words that ask for each.
texts=("_none=" "_version=--version" "_help=--help")
for command in "${commands[@]}"; do texts+=("$command=$command --help"); done

if [ "$words" = --write ]; then
    mkdir -p "$top/docs/help"
    rm -f "$top/docs/help"/*.txt
    for text in "${texts[@]}"; do
        read -ra words <<<"${text#*=}"
        "$program" "${words[@]}" </dev/null >"$top/docs/help/${text%%=*}.txt"
    done
    exit
fi

# A repository whose program isn't built, and a PATH without a kit.
mkdir -p "$room/repo/docs" "$room/repo/crates/invite/src" "$room/bin"
cp "$top/invite" "$top/crates.txt" "$top/HANDLES" "$room/repo"
cp -R "$top/docs/help" "$room/repo/docs"
for tool in bash cat dirname find readlink; do ln -s "$(type -P "$tool")" "$room/bin/$tool"; done

# says TEXT WORDS..: the file has what the program prints of these words, and the script prints that, and ends as the program
says() {
    local text=$1 problem='' status TIMEFORMAT='%U %S'
    shift
    "$program" "$@" </dev/null >"$room/want" 2>"$room/err"
    status=$?
    [ ! -s "$room/err" ] || problem='the program writes to standard error'
    { time env -i PATH="$room/bin" "$room/repo/invite" "$@" </dev/null >"$room/out" 2>"$room/err"; } 2>"$room/took"
    [ "$?,$status" = "$status,$status" ] || problem="the script doesn't end with status $status"
    awk '{ exit $1 + $2 >= 1 }' "$room/took" || problem='the script takes more than a second of a processor'
    cmp -s "$room/want" "$room/out" || problem='the script prints something else'
    [ "$text" = _none ] || [ ! -s "$room/err" ] || problem="the script says $(head -n 1 "$room/err")"
    cmp -s "$room/want" "$top/docs/help/$text.txt" || problem="docs/help/$text.txt isn't what the program prints (tests/program/help.sh --write PROGRAM)"
    mark "$problem" "invite $*"
}

for text in "${texts[@]}"; do
    read -ra words <<<"${text#*=}"
    says "${text%%=*}" "${words[@]}"
done
says _version -V
says _help -h
says answer answer -h
for text in "$top/docs/help"/*.txt; do
    name=$(basename "$text" .txt)
    case " ${texts[*]}" in
        *" $name="*) mark '' "$name" ;;
        *) mark 'of no command' "docs/help/$name.txt" ;;
    esac
done
# What is no question of this kind isn't answered from a file.
for words in 'version --help' 'help --help' '_help --help' '--help --help' '../help/answer --help' 'answer 0 3'; do
    # shellcheck disable=SC2086 # words
    env -i PATH="$room/bin" "$room/repo/invite" $words </dev/null >"$room/out" 2>&1
    if grep -q '^invite: there is no command rt, ' "$room/out"; then mark '' "$words"; else mark "it prints '$(head -n 1 "$room/out")'" "invite $words"; fi
done
tally
