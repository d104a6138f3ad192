#!/usr/bin/env bash
# Whether each crate mentions what its line in crates.txt lists: some path of its code, contracts, definitions or proofs begins with that name.
# Its last line counts the names.
set -u
cd "$(dirname "${BASH_SOURCE[0]}")/../.." || exit 1
source tests/common/tally.sh

while IFS= read -r line; do
    [[ ! ${line%%#*} =~ ^[[:space:]]*$ ]] || continue
    if [[ ! $line =~ ^([a-z0-9_]+)([^:]*):(.*)$ ]]; then
        mark 'no line of a crate' "$line"
        continue
    fi
    crate=${BASH_REMATCH[1]}
    names=${BASH_REMATCH[3]}
    text=$(find "crates/$crate" -name out -prune -o \( -name '*.rt' -o -name '*.antt' \) -exec grep -hvE '^ *(//|--)' {} +)
    for name in $names; do
        if grep -qE "(^|[^A-Za-z0-9_.])(Rattle\.)?$name(::|\.|;| as )" <<<"$text"; then
            mark '' "$crate"
        else
            mark "it doesn't mention $name" "$crate"
        fi
    done
done <crates.txt
tally
