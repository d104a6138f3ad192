#!/usr/bin/env bash
# The scripts `check` and `.ci/run`, over a prover and scripts that do nothing but count: what they run and in which order, which of them by the pages, what they
# leave out and say of it, what they count and how they end. Its last line counts the checks.
set -u
top=$(readlink -f "$(dirname "${BASH_SOURCE[0]}")/../..")
source "$top/tests/common/tally.sh"
room=$(mktemp -d) || exit 1
trap 'rm -rf "$room"' EXIT

# The scripts that docs/TESTING.md lists, with the words behind them: those of the gate, and the others.
rows() {
    awk -F ' *\\| *' -v gate="$1" '/^## / { exit } /^\| `/ { is = $4 !~ /^no/ ? "yes" : "no"; if (is == gate) print $2 }' "$top/docs/TESTING.md" |
        grep -oE '`[^`]+`' | tr -d '`' | grep -vE -e ' --figures$' -e '^examples/' -e '^measures/' -e '^\./check'
}
rows yes >"$room/gate"
rows no >"$room/more"

# A repository in which each of these counts 3 and writes down that it was called; `rt ci` counts 5 and builds a program.
mkdir -p "$room/repo/.ci" "$room/repo/agent" "$room/bin" "$room/alone"
cp "$top/check" "$room/repo"
cp "$top/.ci/run" "$room/repo/.ci"
echo librust-none-dev >"$room/repo/agent/packages"
cut -d ' ' -f 1 "$room/gate" "$room/more" "$top/tests/repository/check.sh" 2>/dev/null | grep / | sort -u >"$room/scripts"
while IFS= read -r script; do
    mkdir -p "$room/repo/${script%/*}"
    case $script in
        *.py) printf '%s\n' 'import os, subprocess, sys' 'sys.exit(subprocess.call(["bash", os.environ["ROOM"] + "/stub", *sys.argv]))' ;;
        *) printf '%s\n' '#!/usr/bin/env bash' 'exec bash "$ROOM/stub" "$0" "$@"' ;;
    esac >"$room/repo/$script"
    chmod +x "$room/repo/$script"
done <"$room/scripts"
cat >"$room/stub" <<'STUB'
# one that is to wait ends only once a later one was called, or after a minute
[ "$1" != "${WAITS-}" ] || for _ in {1..600}; do grep -q tests/repository/pages.py "$ROOM/log" && break || sleep 0.1; done
echo "$*" >>"$ROOM/log"
! read -r || echo 'it is fed' # nothing comes by standard input
case ${BAD-} in
    "$1 counts") echo 'what went wrong' && echo '2 passed, 1 failed' && exit 1 ;;
    "$1 ends") echo '3 passed, 0 failed' && exit 1 ;;
    "$1 says nothing") exit 0 ;;
esac
echo "what $1 says"
echo '3 passed, 0 failed'
STUB
cat >"$room/bin/rt" <<'RT'
#!/usr/bin/env bash
[ "$1" != version ] || { echo a kit; exit; }
echo "rt $*" >>"$ROOM/log"
[ -z "${OPEN-}" ] || { echo 'a goal is open'; echo '4 passed, 1 failed'; exit 1; }
mkdir -p crates/invite/out
echo proved >crates/invite/out/invite && chmod +x crates/invite/out/invite
echo '5 passed, 0 failed'
RT
# The launcher: `--current` says what is built, `--unproved show` builds.
cat >"$room/repo/invite" <<'INVITE'
#!/usr/bin/env bash
out=$(dirname "$(readlink -f "$0")")/crates/invite/out
case "$*" in
    --current) for it in invite unproved; do [ ! -e "$out/$it" ] || { echo "$out/$it"; exit; }; done && exit 1 ;;
    '--unproved show')
        echo "$*" >>"$ROOM/log"
        [ -z "${OPEN-}" ] || { echo 'it was not built' >&2; exit 1; }
        mkdir -p "$out" && echo unproved >"$out/unproved" && chmod +x "$out/unproved" ;;
esac
INVITE
printf '%s\n' '#!/usr/bin/env bash' 'echo "apt-get $*" >>"$ROOM/log"' >"$room/bin/apt-get"
printf '%s\n' '#!/usr/bin/env bash' 'exit 1' >"$room/bin/dpkg-query"
printf '%s\n' '#!/usr/bin/env bash' 'echo "${USER_ID-0}"' >"$room/bin/id"
chmod +x "$room/bin"/* "$room/repo/invite"
# the same tools without a kit
for tool in "$room/bin"/*; do [ "${tool##*/}" = rt ] || cp "$tool" "$room/alone"; done
ln -s "$(python3 -c 'import sys; print(sys.executable)')" "$room/alone/python3"
for tool in awk bash cat cut date dirname grep mkdir mktemp nproc readlink rm sed seq sha256sum sleep sort tail tee wc chmod env head; do
    ln -s "$(type -P "$tool")" "$room/alone/$tool"
done

# call WORDS..: in the repository, where nothing is built; $room/log has what was called, out what was printed
call() {
    : >"$room/log"
    rm -rf "$room/repo/crates"
    [ -z "${BUILT-}" ] || { mkdir -p "$room/repo/crates/invite/out" && : >"$room/repo/crates/invite/out/$BUILT" && chmod +x "$room/repo/crates/invite/out/$BUILT"; }
    (cd "$room" && ROOM=$room TMPDIR=$room PATH=${ONLY-$room/bin:$PATH} "$@" >"$room/out" 2>"$room/err" <<<input)
    status=$?
}
check=$room/repo/check
program=crates/invite/out/invite
gate=$(grep -c . "$room/gate")

# The gate: the proofs, and each script that the page lists, once, in a clean copy.
call env CI=true bash "$room/repo/.ci/run"
expect 'the gate' 0
has 'the gate: its last line' <(tail -n 1 "$room/out") "$((5 + 3 * gate)) passed, 0 failed"
has 'the gate: the proofs come first' <(grep -v apt-get "$room/log" | head -n 1) 'rt ci'
has 'the gate: what it runs' <(sed -n "s,$program,PROGRAM,; /^rt\|^apt-get/d; s/^\([^ ]*\)\( PROGRAM\)\?.*/\1\2/p" "$room/log" | sort) \
    "$(sed 's/^\([^ ]*\)\( PROGRAM\)\?.*/\1\2/' "$room/gate" | sort)"
has 'the gate: nothing is fed to them' <(grep -c 'it is fed' "$room/out") 0
has 'the gate: what is counted of each' <(grep -cE ': 3 passed, 0 failed$' "$room/out") "$gate"
has 'the gate: of each count one line' <(grep -cE '^[0-9]+ passed, [0-9]+ failed$' "$room/out") 1
has 'the gate: what each says' <(grep -c '^what .* says$' "$room/out") "$gate"
has 'the gate: what the package is told' "$room/repo/crates/invite/out/gate" 'kit: a kit' "gate: $((5 + 3 * gate)) passed, 0 failed" \
    "program: $(echo proved | sha256sum | cut -d ' ' -f 1)"
has 'the gate: packages as root, before the agent' <(grep -A 2 '^apt-get' "$room/log" | head -n 3 | sed 's/ -y.*//') 'apt-get update' 'apt-get install' agent/tests/units
USER_ID=1 call "$check"
expect 'as another user' 0
has 'as another user: no packages' <(grep -c '^apt-get' "$room/log") 0
has 'without a word it is the gate' <(tail -n 1 "$room/out") "$((5 + 3 * gate)) passed, 0 failed"

# One failure of each kind is one, and all others are run.
for bad in counts ends 'says nothing'; do
    BAD="tests/files/life.py $bad" call "$check"
    expect "one that $bad" 1
    case $bad in counts) good=2 ;; ends) good=3 ;; *) good=0 ;; esac
    has "one that $bad: what is counted" <(tail -n 1 "$room/out") "$((5 + 3 * gate - 3 + good)) passed, 1 failed"
    has "one that $bad: it is named" <(grep -E '^(python3 tests/files/life.py .*|FAILED: python3 tests/files/life.py.*)$' "$room/out" | tail -n 1) "python3 tests/files/life.py $program: $good passed, 1 failed"
    [ "$bad" != counts ] || has 'what went wrong' <(grep -c '^what went wrong$' "$room/out") 1
    has "one that $bad: what the package is told" <(sed -n 2p "$room/repo/crates/invite/out/gate") "gate: $((5 + 3 * gate - 3 + good)) passed, 1 failed"
done
OPEN=yes call "$check"
expect 'an open goal' 1
has 'an open goal: all others are run' <(grep -vc '^rt\|^apt-get' "$room/log") "$gate"
has 'an open goal: nothing for the package' <(ls "$room/repo/crates" 2>&1 | grep -c invite) 0
ONLY=$room/alone call "$check"
expect 'the gate without a kit' 1
has 'the gate without a kit: nothing is run' "$room/log"
has 'the gate without a kit: what is said' <(sed 's/, which.*//' "$room/out") 'check: there is no command rt' '0 passed, 1 failed'

# Parts by name, over the built program, a named one, or one without proofs.
BUILT=invite call "$check" agent
expect 'a part' 0
has 'a part: what it runs' <(grep -v ^apt-get "$room/log") 'agent/tests/units' "tests/traces/pictures.py $program" "agent/tests/run $program"
has 'a part: its last line' <(tail -n 1 "$room/out") '9 passed, 0 failed'
has 'a part: no word for the package' <(ls "$room/repo/crates/invite/out") invite
BUILT=invite call "$check" package pages
has 'two parts, in their order' <(grep -v ^apt-get "$room/log" | sed 's/ .*//') tests/repository/crates_used.sh tests/repository/columns.py tests/repository/more_edits.py tests/repository/promises.py tests/repository/trusted.py tests/repository/pages.py packaging/test
: >"$room/mine" && chmod +x "$room/mine"
ONLY=$room/alone call "$check" agent "$room/mine"
expect 'a named program, without a kit' 0
has 'a named program: what it is for' <(grep run "$room/log") "agent/tests/run $room/mine"
has 'a named program: nothing is built' <(ls "$room/repo/crates" 2>/dev/null)
ONLY=$room/alone call "$check" agent tests
expect 'no program, and no kit' 0
has 'no program, and no kit: what is run' <(grep -v ^apt-get "$room/log") agent/tests/units
has 'no program, and no kit: what is left out' <(grep '^left out of agent' "$room/out") \
    'left out of agent: python3 tests/traces/pictures.py, agent/tests/run: no program is built of these sources, and there is no kit to build one: name one, such as /usr/lib/dumgerok/invite of a package'
has 'no program, and no kit: a line a part' <(grep -c '^left out' "$room/out") 2
ONLY=$room/alone call "$check" tests
expect 'nothing was tried' 1
ONLY=$room/alone call "$check" proofs
expect 'no kit' 1
has 'no kit: what is left out' <(grep '^left out' "$room/out") 'left out of proofs: rt ci: there is no command rt: it comes with the Rattle kit'
call "$check" tests
expect 'no program' 0
has 'no program: it is built without proofs' <(head -n 1 "$room/log") '--unproved show'
has 'no program: it is said' <(grep '^the program: ' "$room/out") 'the program: crates/invite/out/unproved, which is not proved: checks at run time stand in place of the proofs'
has 'no program: what has bounds is left out' <(grep '^left out' "$room/out" | cut -d : -f 1-3) \
    'left out of tests: python3 tests/program/endless.py, python3 tests/node/slow_disks.py, bash tests/traces/traces.sh, python3 tests/traces/trace_growth.py, python3 tests/leases/lease_explorer.py, python3 tests/leases/leases.py: no proved program is built of these sources'
has 'no program: all else is run' <(grep -c '^tests/.*crates/invite/out/unproved' "$room/log") "$(grep '^tests/.* PROGRAM' "$room/gate" | grep -vcE '/(hostile/run|endless|slow_disks|traces|trace_growth|pictures|lease_explorer|leases)\.')"
call "$check" agent
has 'no program, for none that takes one without proofs' <(grep -c unproved "$room/log") 0
OPEN=yes call "$check" tests
expect 'the program can'"'"'t be built' 1
has 'the program can'"'"'t be built: what is said' <(grep -E '^it was|^left|passed' "$room/out" | cut -d : -f 1) 'it was not built' 'left out of tests' '0 passed, 1 failed'

# What is quick, side by side.
quick=$(BUILT=invite call "$check" --quick && tail -n 1 "$room/out")
has 'quick: what it runs' <(sed 's,.*/,,; s/ .*//' <(cut -d ' ' -f 1 "$room/log") | sort) columns.py command_lines.sh crates_used.sh examples.sh files.py help.sh lease_lines.py more_edits.py pages.py promises.py \
    schedules.sh texts.py trace_rows.py trusted.py
has 'quick: its last line' <(echo "$quick") '42 passed, 0 failed'
BUILT=invite WAITS=tests/repository/crates_used.sh call "$check" --quick
if [ "$(nproc)" -gt 1 ]; then has 'quick: side by side' <(grep -E -m 2 'crates_used|pages' "$room/log") tests/repository/pages.py tests/repository/crates_used.sh; fi
has 'quick: in order' <(grep -m 1 ': 3 passed' "$room/out") 'bash tests/repository/crates_used.sh: 3 passed, 0 failed'
BUILT=invite BAD='tests/program/texts.py counts' call "$check" --quick
expect 'quick: one that counts' 1
has 'quick: one that counts: what is said' <(grep -E 'wrong|1 failed' "$room/out") 'what went wrong' "python3 tests/program/texts.py $program: 2 passed, 1 failed" '41 passed, 1 failed'
BUILT=invite BAD='tests/program/texts.py ends' call "$check" --quick
has 'quick: one that ends' <(tail -n 1 "$room/out") '42 passed, 1 failed'
ONLY=$room/alone call "$check" --quick
expect 'quick: no program, and no kit' 0
has 'quick: no program, and no kit: what is run' <(tail -n 1 "$room/out") '18 passed, 0 failed'

# What is tried by its name alone; a number that is another each time.
BUILT=invite SEED=7 call "$check" long
expect 'the long part' 0
has 'the long part: its seed' <(grep soak "$room/log" | sed 's/.* //') 7
has 'the long part: none without --long, --all or more' <(grep -cE 'hostile/run.py .* --long$|store_faults.sh .* --all$|agent/tests/run .*--long 3600 --only$|store_kills.sh .* 10000$' "$room/log") 4
has 'the long part: its measures' <(grep -E '/measure |/compare |pacing.py ' "$room/log" | sed "s,$program,PROGRAM,") 'agent/tests/measure PROGRAM all' 'agent/tests/compare PROGRAM' \
    'tests/node/pacing.py PROGRAM table 3 0 20' 'tests/node/pacing.py PROGRAM table 3 5 20' 'tests/node/pacing.py PROGRAM table 3 20 20' 'tests/node/pacing.py PROGRAM table 5 20 10' 'tests/node/pacing.py PROGRAM table 16 0 4'

# The words of a call are those of the folder that it comes from.
BUILT=invite call bash -c 'cd repo/agent && ../check agent ../../mine'
expect 'from another folder' 0
has 'from another folder: the program' <(grep run "$room/log") "agent/tests/run $room/mine"
call bash -c 'cd repo/agent && ../check --help'
has 'from another folder: --help' <(head -n 1 "$room/out") 'Tests what is here. Called with'
call "$check" pages
has 'no program for what needs none' <(grep -c program "$room/out") 0

for word in nothing ./none --long "$room/mine"; do
    call "$check" "$word"
    expect "$word" 2
    has "$word: nothing is run" "$room/log"
done
call "$check" --help
expect '--help' 0
has '--help: nothing is run' "$room/log"
has '--help: the parts' <(sed '1,/^$/d' "$room/out" | grep -oE '^[a-z]+ ' | tr -d ' ') proofs pages scripts tests hostile agent package disk long figures
has 'nothing is left behind' <(ls -A "$room" | grep -c '^tmp\.') 0
tally
