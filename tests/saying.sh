# shellcheck shell=bash
# For tests to read in: a line for each thing that is tried or compared. `failed` is 1 once one has failed.
failed=0

# try NAME COMMAND..: runs it and says how it went
try() {
    local name="$1" start="$SECONDS"
    shift
    if "$@"; then
        echo "passed: $name ($((SECONDS - start)) s)"
    else
        echo "FAILED: $name"
        failed=1
    fi
}

# say NAME EXPECTED FOUND: whether the two are the same
say() {
    if [ "$2" = "$3" ]; then
        echo "same: $1"
    else
        echo "DIFFERENT: $1"
        diff <(echo "$2") <(echo "$3") || true
        failed=1
    fi
}
