# For tests that need more than the Rattle toolchain; they source it. What is missing is not tried, or, where SLIPWATTLE_ALL is 1, is a failure.

# cargo may stand outside PATH, in the user's own folder.
if ! command -v cargo > /dev/null; then
    home=${HOME:-$(getent passwd "$(id -u)" | cut -d: -f6)}
    export PATH="$PATH:${CARGO_HOME:-$home/.cargo}/bin"
fi

# missing TEST WHAT: says so.
missing() {
    echo "$1: no $2 here, so it is not tried"
    if [ "${SLIPWATTLE_ALL:-0}" = 1 ]; then
        exit 1
    fi
}

# need TEST COMMAND...: ends the test at the first command that is missing.
need() {
    local test=$1 command
    shift
    for command in "$@"; do
        if ! command -v "$command" > /dev/null; then
            missing "$test" "$command"
            exit 0
        fi
    done
}

# quiet COMMAND...: its output goes to target/quiet.log, and is shown only if it fails.
quiet() {
    mkdir -p target
    "$@" > target/quiet.log 2>&1 || { cat target/quiet.log; exit 1; }
}
