# Sourced by the parts of the gate that are written in bash: counts checks, and ends with the line that the gate reads.
# `part` is the name of the part. Paths are those from the top of the repository.
cd "$(dirname "${BASH_SOURCE[0]}")/.." || exit 1
passed=0
failed=0
scratch=$(mktemp -d)
trap 'rm -rf "$scratch"' EXIT
written=$scratch/written
expected=$scratch/expected

# check NAME COMMAND..: counts whether the command ends with status 0.
check() {
    if "${@:2}"; then
        passed=$((passed + 1))
    else
        failed=$((failed + 1))
        echo "failed: $1"
    fi
}

# answers STATUS OUTPUT WORDS..: whether the program, run on standard input with these words, ends with this status and
# writes this file.
answers() {
    local status
    timeout 120 ./hlcstore "${@:3}" >"$written"
    status=$?
    [ "$status" -eq "$1" ] && cmp "$written" "$2" && return
    echo "expected status $1 and output $2, got status $status"
    return 1
}

# finish: prints the numbers, and ends.
finish() {
    echo "$part: $passed passed, $failed failed"
    [ "$failed" -eq 0 ]
    exit
}
