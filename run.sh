#!/usr/bin/env bash
# Runs the program on a script and prints what it answers.
#
#   ./run.sh SCRIPT                       the chains of the script, step by step
#   ./run.sh race --relayers 8 SCRIPT     the same with eight relayers at each `relay`, in threads
#   ./run.sh lab check SCRIPT ..          says what is wrong with scripts, by ibclab
#   ./run.sh lab explain [--json] SCRIPT  runs a script, and says what each line is about
#   ./run.sh lab draw [--html | --mermaid] SCRIPT     runs a script, and draws the run, as SVG where nothing else is said
#   ./run.sh --proved ..                  by the proved program
#
# Where the proved program of these sources stands in crates/ibcworld/out (or crates/ibclab/out), it is started, at once. Else `rt try` builds the program without its proofs, in
# a minute or two, and keeps nothing of it. That build has checks for what proofs exclude, and isn't made fast; `rt try` says how it ended, on standard
# error, and gives no answer of more than a MiB. With --proved all that the program stands on is proved first, where that isn't done yet: long from
# nothing, and once. The status is the program's, or what `rt help` says of `rt try`.
set -eu

name=ibcworld
stored=(run) # the words of its stored run
seconds=600 # that a run without proofs may take

usage() {
    echo "usage: ./run.sh [--proved] [race --relayers N] SCRIPT" >&2
    echo "       ./run.sh [--proved] lab check SCRIPT .." >&2
    echo "       ./run.sh [--proved] lab explain [--json] SCRIPT" >&2
    echo "       ./run.sh [--proved] lab draw [--html | --mermaid] SCRIPT" >&2
    exit 2
}

refuse() {
    echo "run.sh: $1" >&2
    exit 2
}

# Proves and builds the program, which is run once on its stored script, and has it noted what it was made of.
prove() {
    local sums
    sums=$(tools/proved_program --sums "$name")
    echo "run.sh: proving and building what isn't yet; all crates below the program are proved once, which takes long" >&2
    (cd "crates/$name" && rt run -- "${stored[@]}" <"$input" >/dev/null) || refuse "the program isn't proved, or can't be built"
    tools/proved_program --note <<<"$sums"
    tools/proved_program "$name" >/dev/null 2>&1 || refuse "a source was changed while the program was proved: call this again"
}

proved=no
if [ "${1-}" = --proved ]; then
    proved=yes
    shift
fi
[ $# -gt 0 ] || usage
script=${*: -1}
case "$script" in
    --help | -h) usage ;;
esac

# Refuses what is no file that can be read.
look_at() {
    [ -e "$1" ] || refuse "there is no file $1"
    [ ! -d "$1" ] || refuse "$1 is a folder, and no script"
    [ -r "$1" ] || refuse "$1 can't be read"
}

if [ "$1" = lab ]; then
    shift
    case "${1-}" in
        check | explain | draw) words=("$1") ;;
        *) usage ;;
    esac
    shift
    case "${words[0]} ${1-}" in
        "explain --json" | "draw --html" | "draw --mermaid")
            words+=("$1")
            shift
            ;;
    esac
    [ $# -gt 0 ] || usage
    name=ibclab
    stored=(--version)
    input=/dev/null
    files=("$@")
    for file in "${files[@]}"; do
        look_at "$file"
    done
else
    input=stdin
    files=()
    words=("${@:1:$#-1}")
    [ ${#words[@]} -gt 0 ] || words=(run)
    look_at "$script"
    exec <"$script"
fi
here=$PWD
cd "$(dirname "$0")"
command -v rt >/dev/null || refuse "rt is missing (the Rattle kit's)"
program=$PWD/crates/$name/out/$name

# Becomes the proved program, in the folder that this was called in.
start() {
    cd "$here"
    exec "$program" "${words[@]}" "${files[@]}"
}

if why=$(tools/proved_program "$name" 2>&1 >/dev/null); then
    start
fi
if [ "$proved" = yes ]; then
    prove
    start
fi
echo "run.sh: $why; this run builds it without proofs, in a minute or two, and keeps nothing (./run.sh --proved proves all below it once, and keeps it)" >&2
if [ "$name" = ibclab ]; then
    mapfile -t files < <(cd "$here" && realpath -- "${files[@]}")
fi
cd "crates/$name"
exec rt try --seconds "$seconds" -- "${words[@]}" "${files[@]}"
