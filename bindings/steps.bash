# What the checks of the packages and of the callers share; bash reads it. It needs `archive`, the archive to check.
bindings=$(cd "$(dirname "${BASH_SOURCE[0]}")" && pwd)
top=$(dirname "$bindings")
header=$top/include/hlcstore.h
version=$(sed -n 's/^#define HLC_VERSION "\(.*\)"$/\1/p' "$header")
# abi_of VERSION: prints the part of a version that an ABI has: its first number, or before 1.0 the first two.
abi_of() {
    case $1 in
        0.*) echo "${1%.*}" ;;
        *) echo "${1%%.*}" ;;
    esac
}
scratch=$(mktemp -d)
trap 'rm -rf "$scratch"' EXIT
prefix=$scratch/prefix
passed=0
failed=0
# How many seconds a step may take; and in KiB, how much address space each of its programs may use, and how long a file
# may get.
step_seconds=300
step_memory=$((4 << 20))
step_file=$((1 << 20))
# The address sanitiser needs more address space than there is memory, and has a limit of its own, in MiB. Valgrind
# looks for leaks: not every machine allows the sanitiser to search for them.
export ASAN_OPTIONS=detect_leaks=0:hard_rss_limit_mb=4096
# A build in Rust is used once, and its failures name the line as it is.
export CARGO_PROFILE_DEV_DEBUG=0 CARGO_INCREMENTAL=0

# limited COMMAND..: runs a command or a function, without input, and within these limits. It is ended in time with all
# that it started, so that a program that does not end fails its own step alone.
limited() (
    ulimit -S -v "$step_memory"
    ulimit -S -f "$step_file"
    set -m
    "$@" </dev/null &
    step=$!
    { sleep "$step_seconds"; echo "it did not end in $step_seconds seconds"; kill -KILL -- "-$step"; } &
    timer=$!
    trap 'kill -KILL -- "-$step" "-$timer" 2>/dev/null' EXIT
    wait "$step"
)

# check NAME COMMAND..: counts whether the command ends with status 0, and prints what it says where it does not. A step
# that takes a fifth of its time is named, before it takes all on a slower machine.
check() {
    local began=$SECONDS
    if limited "${@:2}" >"$scratch/said" 2>&1; then
        passed=$((passed + 1))
    else
        failed=$((failed + 1))
        echo "failed: $1"
        tail -n 20 "$scratch/said"
    fi
    [ $((5 * (SECONDS - began))) -lt "$step_seconds" ] || echo "slow: $1, $((SECONDS - began)) of $step_seconds seconds"
}

# prints NAME FILE COMMAND..: counts whether the command prints this file, and ends with status 0.
prints() {
    check "$1" is_printed "${@:2}"
}

is_printed() {
    "${@:2}" >"$scratch/printed" 2>"$scratch/errors" && diff "$1" "$scratch/printed" && return
    head -n 20 "$scratch/errors"
    return 1
}

# prints_line NAME LINE COMMAND..: the same for one line.
prints_line() {
    echo "$2" >"$scratch/line"
    prints "$1" "$scratch/line" "${@:3}"
}

# watched CHECK..: makes a check of a program that has the address sanitiser.
watched() {
    step_memory=unlimited "$@"
}

# leaks_nothing COMMAND..: runs a program under valgrind, which must find no bad access and no leak.
leaks_nothing() {
    valgrind -q --error-exitcode=9 --leak-check=full --show-leak-kinds=all "$@"
}

# has TOOL: whether the machine has this tool. Where it does not, what needs it is left out, and that is printed.
has() {
    command -v "$1" >/dev/null && return
    echo "left out: no $1"
    return 1
}

# can_link_files: whether the machine has what libhlcstore-file needs. Where it does not, that is printed.
can_link_files() {
    echo 'int one;' | cc -shared -x c - -lsqlite3 -lz -o "$scratch/linked" 2>/dev/null && return
    echo 'left out: no SQLite or no zlib, so no files'
    return 1
}

# install_to VARIABLES..: installs the package, built from a copy of the archive, whose verdict is not known.
install_to() {
    make -s -C "$bindings" install FFI="$scratch/libhlc_ffi.a" OUT="$scratch/out" "$@"
}

# example LANGUAGE DOCUMENT [NUMBER]: prints an example of a document, the first one of the language where no number is
# given.
example() {
    awk -v fence="\`\`\`$1" -v wanted="${3:-1}" \
        '/^```/ { inside = ($0 == fence && ++many == wanted); next } inside' "$2"
}

# summary LANGUAGE: prints the counts, and returns 0 where nothing failed. Where nothing could be checked, it
# returns 77.
summary() {
    if [ $((passed + failed)) -eq 0 ]; then
        echo "bindings $1: SKIPPED, since the machine lacks what it needs"
        return 77
    fi
    echo "bindings $1: $passed passed, $failed failed"
    [ "$failed" -eq 0 ]
}

if [ ! -f "${archive:-}" ]; then
    echo "usage: $0 ARCHIVE"
    exit 2
fi
cp "$archive" "$scratch/libhlc_ffi.a" || exit 1
mkdir "$scratch/empty"
