#!/usr/bin/env bash
# Of each schedule of the folder schedules the program prints what stands in it behind the line `----`. Called with the program, as in:
# tests/program/schedules.sh crates/invite/out/invite. Its last line counts the schedules.
source "$(dirname "${BASH_SOURCE[0]}")/../common/tally.sh"
source "$(dirname "${BASH_SOURCE[0]}")/../common/schedules.sh"
a_program "$1"
cd "$(dirname "${BASH_SOURCE[0]}")/../.." || exit 1

for schedule in schedules/*.txt; do
    problem='' want=$(printed "$schedule")
    found=$(acts "$schedule" | "$program" sim && echo it ends well) || problem='it ends badly'
    [ -n "$want" ] && [ "$found" = "$want"$'\nit ends well' ] || problem=${problem:-$(diff <(echo "$want") <(echo "$found") | head -n 5)}
    mark "$problem" "$schedule"
done
tally
