#!/usr/bin/env bash
# Runs the built program where something on the disk or the screen fails, and compares its exit status and its text.
#
# usage: tools/real_folders.sh PROGRAM
#
# Each case is a copy of examples/langmuir, with something in the way, or an empty folder for a made deck. It prints a line for each case, and at last
# `real folders: N as expected, M not`; the status is 0 where M is 0.
set -u
cd "$(dirname "$0")/.." || exit 1
program=$(realpath "$1") || exit 1

room=$(mktemp -d) || exit 1
trap 'rm -rf "$room"' EXIT
passed=0 failed=0

# Makes the folder of a case.
folder_of() {
    mkdir "$room/$1" && cp examples/langmuir/*_input.dat "$room/$1" && cd "$room/$1" || exit 1
}

# Notes whether a case ended as expected: its name, the status and the text, and those that are wanted.
ended() {
    if [ "$2" = "$4" ] && [ "$3" = "$5" ]; then
        passed=$((passed + 1))
        echo "real folders: $1: as expected"
    else
        failed=$((failed + 1))
        echo "real folders: $1: status $2 and \"$3\", not $4 and \"$5\""
    fi
}

# Runs the program in the folder of a case, which is the present one, on some words.
runs() {
    local name=$1 wanted=$2 text=$3 screen status
    shift 3
    screen=$("$program" "$@" 2>&1 </dev/null)
    status=$?
    ended "$name" "$status" "$screen" "$wanted" "$text"
}

# Whether the output of the present folder is that of the whole run.
complete() {
    cmp -s specnum_output.txt "$OLDPWD/examples/langmuir/specnum_output.txt" && echo complete
}

folder_of words && runs "no command" 2 "kmc: run, check, sample N or schedule N, with --workers W and --spread M"; cd "$OLDPWD"
folder_of check && runs "a check" 0 "sites 400"$'\n'"processes 2"$'\n'"clusters 0" check; cd "$OLDPWD"
mkdir "$room/made" && cd "$room/made" &&
    runs "a made deck" 0 "sample 0
sites 100
events 200
time 0.000220952339300973
surface CO* 79
surface O* 7
gas CO -126
gas O2 -27
gas CO2 47
energy -110.600000000
stop steps" sample 0; cd "$OLDPWD"
folder_of missing && rm mechanism_input.dat && runs "a missing file" 3 "fault mechanism_input.dat line 0 kind 1" run; cd "$OLDPWD"
folder_of unreadable && rm lattice_input.dat && mkdir lattice_input.dat &&
    runs "a folder as an input" 4 "cannot read lattice_input.dat" run; cd "$OLDPWD"
folder_of unwritable && mkdir specnum_output.txt &&
    runs "a folder as an output" 5 "cannot write specnum_output.txt" run; cd "$OLDPWD"
folder_of full && ln -s /dev/full specnum_output.txt &&
    runs "a full disk" 5 "cannot write specnum_output.txt" run; cd "$OLDPWD"

# Where the screen fails, the outputs are complete, and a refused deck stays refused.
folder_of closed && "$program" run >&- 2>/dev/null </dev/null
ended "a closed screen" "$?" "$(complete)" 6 complete; cd "$OLDPWD"
folder_of pipe && { "$program" run 2>/dev/null </dev/null; echo $? >status; } | true
ended "a pipe that closes early" "$(cat status)" "$(complete)" 6 complete; cd "$OLDPWD"
folder_of refused && rm mechanism_input.dat && "$program" run >&- 2>/dev/null </dev/null
ended "a refusal on a closed screen" "$?" "" 3 ""; cd "$OLDPWD"

echo "real folders: $passed as expected, $failed not"
[ "$failed" -eq 0 ]
