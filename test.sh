#!/usr/bin/env bash
# All that is proved and tested.
#
#   ./test.sh                  the gate: every proof, every test, that every wrong body was refused, and the built programs in hostile surroundings
#   ./test.sh --quick          proves what changed, and runs the tests and the stored runs. It is not the gate
#   ./test.sh --unproved       runs every test, case and example by `rt try`, and proves nothing
#   ./test.sh --wrong-bodies   tries every wrong body anew
#
# What a part says is printed, then how it went and which parts are left, and in the end a table of all parts. The last line says how much
# passed and failed in all, and the status is 0 where nothing failed. A part that isn't there, or that passed nothing, is a failure.
# Nothing is installed: gcc or clang, g++ and cargo have to be there.
set -u
cd "$(dirname "$0")"
top=$PWD
# Parts that go on side by side copy the tools: nothing is written among these.
export PYTHONDONTWRITEBYTECODE=1

parts=(
    "tools/kit_commands"
    "tools/kit_commands --selftest"
    "tools/statements"
    "tools/house --gate"
    "tools/frozen --selftest"
    "tools/refusals --check"
    "tools/check_rules"
    "tools/check_schema"
    "tools/test_trust"
    "tools/instructions --selftest"
    "tools/linked --selftest"
    "tools/check_journal_views"
    "tools/library_sums --check"
    "rt ci"
    "tools/trust LOG"
    "tools/linked"
    "tools/try_edits --said LOG"
    "tools/check_statuses"
    "tools/check_cases"
    "tools/check_lab"
    "tools/check_outputs"
    "tools/third_party"
    "tools/instructions"
    "tools/refuse_growths"
    "tools/refuse_by_call"
    "tools/broken_streams"
    "tools/kill_node --kills 10 --cuts 5"
    "examples/replicas/replicas"
    "tools/wrong_bytes --count 100000"
    "tools/test_try_edits"
    "tools/test_commands"
    "tools/build_library --kept"
)
# LOG is what `rt ci` said. `rt ci` has all processors. The parts before it go on side by side, and so do those behind it: $PARTS at a time, or as many
# as there are processors. What each says is printed in the order of the list.
# What these parts need isn't part of the gate's surroundings: where one ends with status 77 and a line `left out: ..`, that is told and is no failure.
optional=("tools/third_party" "tools/instructions" "examples/replicas/replicas" "tools/build_library --kept")
quick_parts=(
    "tools/kit_commands"
    "tools/statements"
    "tools/refusals --check"
    "rt ci"
    "tools/trust LOG"
)

work=$(mktemp -d)
at_once=${PARTS:-$(nproc)}
started=()
behind=""
left_out=""
proved=""
passed=0
failed=0
processor=0
begun=$SECONDS
rows=()

# Ends the parts that still run, and takes away what was drawn.
clean() {
    local group
    for group in $(jobs -p); do
        kill -- "-$group" 2>/dev/null
    done
    rm -rf "$work" "$top"/crates/*/must-fail/drawn_*.edit
}
trap clean EXIT
trap 'exit 130' INT
trap 'exit 143' TERM HUP

clock() {
    printf '%d:%02d' $(($1 / 60)) $(($1 % 60))
}

# Runs a command, and leaves in files its status, its seconds, and those of processor.
run() {
    local files=$1
    shift
    TIMEFORMAT='%R %U %S'
    { time "$@" 2>&1; } 2>"$files.time"
    echo $? >"$files.status"
}

# Notes a part that may be left out and was, and why. Whether it was.
note_left_out() {
    local title=$1 files=$2 left=$3 why
    [[ " ${optional[*]} " == *" $title "* ]] && [ "$(cat "$files.status")" = 77 ] || return 1
    why=$(grep '^left out: ' "$files.said" | tail -n 1)
    [ -n "$why" ] || return 1
    left_out+="; left out: $title"
    rows+=("| \`$title\` | $why | | | |")
    echo "test.sh: $title: $why; left: ${left:-nothing}"
}

# Notes what a part came to whose output stands in a file. Where the part said nothing of it, that is a failure, which the file then says too.
note() {
    local title=$1 files=$2 left=$3 told wall used
    ! note_left_out "$@" || return 0
    if ! grep -qE '^[0-9]+ passed, [0-9]+ failed' "$files.said"; then
        echo "0 passed, 1 failed" | tee -a "$files.said"
    fi
    told=$(grep -oE '^[0-9]+ passed, [0-9]+ failed' "$files.said" | tail -n 1)
    local well=${told%% *} wrong=${told##*, }
    wrong=${wrong%% *}
    if [ "$wrong" -eq 0 ] && { [ "$well" -eq 0 ] || [ "$(cat "$files.status")" -ne 0 ]; }; then
        wrong=1
    fi
    read -r wall used < <(awk 'END { printf "%.0f %.0f\n", $1, $2 + $3 }' "$files.time")
    passed=$((passed + well))
    failed=$((failed + wrong))
    processor=$((processor + used))
    rows+=("| \`$title\` | $well | $wrong | $(clock "$wall") | $used |")
    echo "test.sh: $title: $well passed, $wrong failed, in $(clock "$wall") minutes; left: ${left:-nothing}"
}

# Has `rt ci` try the wrong bodies that the commit draws too (--plant), or takes them away again (--clear).
draw() {
    [[ " ${parts[*]} " != *" tools/try_edits "* ]] || tools/try_edits "$1"
}

# Runs a part. Files have what it says, its seconds, and in the end its status.
run_part() {
    local title=$1 files=$2 words
    read -ra words <<<"$title"
    words=("${words[@]/#LOG/$proved}")
    if command -v "${words[0]}" >/dev/null; then
        run "$files" "${words[@]}"
    else
        echo "test.sh: ${words[0]} isn't there"
        echo "0 0 0" >"$files.time"
        echo 127 >"$files.status"
    fi
}

# What is left behind a part, by its number.
left_behind() {
    local left
    left=$(printf '%s, ' "${parts[@]:$1+1}")
    echo "${left%, }"
}

# Copies what comes, and says behind each crate's verdict how many minutes have gone since the first line.
clocked() {
    local line begun=$SECONDS
    while IFS= read -r line || [ -n "$line" ]; do
        printf '%s\n' "$line"
        [[ $line != rt:*" proved" ]] || echo "test.sh: that was $(clock $((SECONDS - begun))) minutes after rt ci began"
    done
}

# Runs `rt ci`, which has this number, and prints what it says as it comes.
prove() {
    local files="$work/part-$1"
    echo "test.sh: rt ci"
    proved="$files.said"
    tools/proved_program --sums >"$work/sums"
    draw --plant
    run_part "rt ci" "$files" | tee "$files.said" | clocked
    draw --clear
    [ "$(cat "$files.status")" != 0 ] || tools/proved_program --note <"$work/sums"
    note "rt ci" "$files" "$(left_behind "$1")"
}

# Runs the parts with these numbers side by side, each in a group of processes of its own, and tells of each in this order.
side_by_side() {
    local number told=0 numbers=("$@")
    for number; do
        while [ "$(jobs -rp | wc -l)" -ge "$at_once" ]; do
            wait -n
        done
        set -m
        run_part "${parts[number]}" "$work/part-$number" </dev/null >"$work/part-$number.said" &
        started[number]=$!
        set +m
        while [ -s "$work/part-${numbers[told]-}.status" ]; do
            tell "${numbers[told]}"
            told=$((told + 1))
        done
    done
    for number in "${numbers[@]:told}"; do
        wait "${started[number]}"
        tell "$number"
    done
}

# Prints what a part said, by its number, and notes what it came to. One that was killed left no status.
tell() {
    local title=${parts[$1]} files="$work/part-$1"
    echo "test.sh: $title"
    if [ ! -s "$files.status" ]; then
        echo "test.sh: $title: it was ended" >>"$files.said"
        echo "0 0 0" >"$files.time"
        echo 137 >"$files.status"
    fi
    cat "$files.said"
    note "$title" "$files" "$(left_behind "$1")"
}

# A copy of the repository without what is built and without the edits that `rt ci` tries. What is proved in it is kept for every copy.
copy() {
    mkdir -p "$1/.git"
    tar -c --exclude=./.git --exclude=out --exclude=target --exclude=must-fail . | tar -x -C "$1"
}

# What programs wrote in the copy, where a stored run failed and names it, is left where it would lie without the copy; and so are the programs that
# are noted as the proved ones of their sources.
copy_back() {
    local it program
    for it in crates/*/out/stdout* crates/*/out/*.sources; do
        [ -f "$it" ] || continue
        mkdir -p "$top/${it%/*}"
        cp "$it" "$top/$it"
        program=${it%.sources}
        [ "$program" = "$it" ] || { cp "$program" "$top/$program.new" && mv "$top/$program.new" "$top/$program"; }
    done
}

# Whether the kit is there, without which no part can say anything.
need_kit() {
    command -v rt >/dev/null && return
    echo "test.sh: rt is missing (the Rattle kit's)" >&2
    exit 2
}

case "$#${1-}" in
    0) need_kit ;;
    1--quick)
        need_kit
        parts=("${quick_parts[@]}")
        behind="; this is not the gate: no wrong body was tried, and nothing in hostile surroundings"
        copy "$work/copy"
        cd "$work/copy"
        ;;
    1--unproved) exec tools/test_unproved ;;
    1--wrong-bodies)
        need_kit
        exec tools/try_edits --anew
        ;;
    *)
        echo "usage: ./test.sh [--quick | --unproved | --wrong-bodies]" >&2
        exit 2
        ;;
esac

before=()
for number in "${!parts[@]}"; do
    if [ "${parts[number]}" = "rt ci" ]; then
        side_by_side "${before[@]}"
        prove "$number"
        before=()
    else
        before+=("$number")
    fi
done
side_by_side "${before[@]}"
[ "$PWD" = "$top" ] || copy_back

printf '\n| part | passed | failed | minutes | processor seconds |\n|---|---|---|---|---|\n'
printf '%s\n' "${rows[@]}"
printf '| all | %d | %d | %s | %d |\n\n' "$passed" "$failed" "$(clock $((SECONDS - begun)))" "$processor"
echo "$passed passed, $failed failed$left_out$behind"
[ "$failed" -eq 0 ]
