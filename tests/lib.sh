# What the suites share, and the commands beside them. suites/ has the five suites that the test command runs; checks/
# is what the first of them asks of the pages and the crates, programs/ the second's programs, differential/ the third's
# entries and comparison, record/ the fourth's heats and second programs, shared/ what several of them use, commands/
# the fifth's hosts, pipes and scratch clone. oracle/ builds the two references; stored/ has answers of both.
# Sourced; the working folder becomes the repository's root. A check prints `ok: NAME` or `FAILED: NAME: why`. Status 3
# of a command is "not at hand", used only where the papers' folder is absent or the package registry cannot be reached;
# every other status but 0 is a failure.
. "$(dirname "${BASH_SOURCE[0]}")/prove.sh"

# The archives with C exports and their header: a new name is written here, and in examples/host.c, which includes it.
calls_crate=test_calls
roots_crate=bench_calls
bench_crates="bench_calls"
record_crate=record
measured_crate=measured_bodies
header=netxurbil_test_calls.h

# A check makes thousands of small files and removes them: in memory that takes a second or two less. Programs are run
# from there too.
in_memory() { awk '$2 == "/dev/shm" { how = $4 } END { exit how !~ /^rw/ || how ~ /noexec/ }' /proc/mounts; }
if [ -z "$TMPDIR" ] && in_memory; then export TMPDIR=/dev/shm; fi

# What the two references are made of.
papers=${PAPERS:-$PWD/../shared/docs/src}
box2d=/usr/include/box2d/box2d.h

# The pages whose heats are run.
pages="README.md docs/LIMITS.md"

build=target/tests
oracle=$PWD/target/oracle
warnings="-Wall -Wextra -Werror -O2"
mkdir -p $build "$oracle"
passed=0 failed=0

ok() { passed=$((passed + 1)); echo "ok: $1"; }
fail() { failed=$((failed + 1)); echo "FAILED: $1: $2"; }

# check NAME COMMAND..: one check, passed where the command ends with status 0; otherwise its last line says why
check() {
    local name=$1; shift
    attempt "$@"
    if [ $status -eq 0 ]; then ok "$name"; else fail "$name" "$why"; fi
    return $status
}

# reference NAME PLACE COMMAND..: the same, but status 3 is no failure where PLACE is not there: what the command needs
# is not at hand
reference() {
    local name=$1 place=$2; shift 2
    attempt "$@"
    case $status in
        0) ok "$name" ;;
        3) if [ -e "$place" ]; then fail "$name" "not at hand, though $place is there: $why"
           else echo "not at hand: $name: $why"; fi ;;
        *) fail "$name" "$why" ;;
    esac
    return $status
}

# attempt COMMAND..: runs it and sets status and why
attempt() {
    local log
    log=$(mktemp)
    "$@" 2>&1 | tee "$log"; status=${PIPESTATUS[0]}
    why=$(grep . "$log" | tail -n 1)
    [ "$status" -eq 3 ] && [ -n "$why" ] || why="status $status of '$1', which says: ${why:-nothing}"
    rm -f "$log"
}

# output FILE COMMAND..: the command ends with status 0 and writes something to FILE
output() {
    local file=$1; shift
    rm -f "$file"
    "$@" > "$file" || return
    [ -s "$file" ] || { echo "nothing written by '$*'"; return 1; }
}

# same WANTED GOT: two files that are not empty and are the same
same() {
    local file
    for file; do [ -s "$file" ] || { echo "nothing in $file"; return 1; }; done
    diff "$1" "$2"
}

# counted NAME COMMAND..: a command that makes checks of its own and says how many in its last line,
# `N passed, M failed`
counted() {
    local name=$1 log status; shift
    log=$(mktemp)
    "$@" | tee "$log"; status=${PIPESTATUS[0]}
    add_up "$name" "$log" $status ""
    rm -f "$log"
}

# add_up NAME LOG STATUS WORDS: adds the counts of the log's last line, `WORDS N passed, M failed`. A failure where
# there is no such line, where it counts nothing, and where it does not fit the status or the lines above it.
add_up() {
    local last good bad
    last=$(tail -n 1 "$2")
    if ! [[ $last =~ ^"$4"([0-9]+)\ passed,\ ([0-9]+)\ failed$ ]]; then
        fail "$1" "no count in its last line, status $3"
        return
    fi
    good=${BASH_REMATCH[1]} bad=${BASH_REMATCH[2]}
    passed=$((passed + good)) failed=$((failed + bad))
    if [ $((good + bad)) -eq 0 ]; then
        fail "$1" "it counts no check"
    elif [ "$3" -ne 0 ] && [ "$bad" -eq 0 ]; then
        fail "$1" "status $3, though it counts no failure"
    elif [ "$3" -eq 0 ] && [ "$bad" -ne 0 ]; then
        fail "$1" "status 0, though it counts failures"
    elif [ "$bad" -eq 0 ] && grep -q '^FAILED: ' "$2"; then
        fail "$1" "a line says FAILED, though it counts no failure"
    fi
}

# digest NAME: of a file of tests/stored; of a folder there, of the digests and names of its files
digest() {
    (cd tests/stored && if [ -d "$1" ]; then sha256sum "$1"/* | sha256sum; else sha256sum < "$1"; fi) | cut -d ' ' -f 1
}

# pinned NAME: a file or folder of tests/stored has the content that its COUNTS names by a digest
pinned() {
    local wanted here
    wanted=$(awk -v name="$1" '$1 == name { print $3 }' tests/stored/COUNTS) here=$(digest "$1")
    [ -n "$wanted" ] && [ "$here" = "$wanted" ] || { echo "$1: $here, not ${wanted:-pinned}"; return 1; }
}

# summary: the last two lines of a suite, its seconds and its count, and its status
summary() {
    echo "seconds: $SECONDS"
    echo "suite: $passed passed, $failed failed"
    [ $failed -eq 0 ]
}

# kit: the identity of the toolchain that ran, and where docs/CLAIMS.md names another, which is no failure
kit() {
    local here named
    here=$(rt version)
    named=$(grep -no 'rattle-kit-[^ ]* logic [0-9a-f]*' docs/CLAIMS.md | grep -vF ":$here")
    echo "kit: $here"
    [ -z "$named" ] || echo "$named" | sed 's|^\([0-9]*\):\(.*\)|note: docs/CLAIMS.md:\1 names another kit, \2|'
}

# install PACKAGE: from Debian. Status 3 where the registry cannot be reached, 1 where the package cannot be had
install() {
    apt-get update -qq -o APT::Update::Error-Mode=any > /dev/null 2>&1 ||
        { echo "the package registry cannot be reached"; return 3; }
    apt-get install -y -qq "$1" > /dev/null 2>&1 || { echo "$1 cannot be installed"; return 1; }
}

# tool COMMAND PACKAGE: a check that the command is there, installed where it is missing. Never "not at hand": nothing
# goes without it.
tool() {
    command -v "$1" > /dev/null || install "$2"
    if command -v "$1" > /dev/null; then ok "the tool $1"; else fail "the tool $1" "missing, and not installed"; fi
}

# library NAME: a check that target/staticlib/libNAME.a is proved and built for C. Not built again from the same files.
library() { check "static library $1" quiet archive "$1"; }

# quiet COMMAND..: its output only where it fails
quiet() {
    local log status
    log=$(mktemp)
    "$@" > "$log" 2>&1; status=$?
    [ $status -eq 0 ] || tail -n 20 "$log"
    rm -f "$log"
    return $status
}
