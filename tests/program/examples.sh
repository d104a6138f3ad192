#!/usr/bin/env bash
# The examples of docs/GUARANTEES.md print what stands behind them. Called with the program, as in: tests/program/examples.sh crates/invite/out/invite.
# Its last line counts them.
#
# An example is a fenced block that calls ./invite: its commands, an empty line, and what they print. A variable that one
# block sets stands in the later ones too.
source "$(dirname "${BASH_SOURCE[0]}")/../common/tally.sh"
a_program "$1"
cd "$(dirname "${BASH_SOURCE[0]}")/../.." || exit 1
page=docs/GUARANTEES.md

blocks=$(mktemp -d) || exit 1
trap 'rm -rf "$blocks"' EXIT
awk -v folder="$blocks" '
    /^```/ { if (inside && text ~ /\.\/invite/) printf "%s", text > sprintf("%s/%02d", folder, ++n); inside = !inside; text = ""; next }
    inside { text = text $0 "\n" }' "$page"

for block in "$blocks"/*; do
    commands=$(sed '/^$/,$d' "$block")
    want=$(sed '1,/^$/d' "$block")
    eval "${commands//.\/invite/\"\$program\"}" > "$blocks.out" 2>&1
    problem=''
    [ "$(cat "$blocks.out")" = "$want" ] && [ -n "$want" ] || problem="it prints something else than $page says"
    mark "$problem" "$commands"
done
rm -f "$blocks.out"
tally
