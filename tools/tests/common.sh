# shellcheck shell=bash
# Common to the tests of the tools. $made is a folder that is removed at the end.
set -euo pipefail
cd "$(dirname "$0")/../.."
made=$(mktemp -d)
trap 'rm -rf "$made"' EXIT
tries=0

fail() { echo "tools/tests/$(basename "$0"): $*" >&2; exit 1; }

# Runs a command and checks its status; what it writes is in $made/out and $made/err.
ends() { # STATUS COMMAND..
    local due=$1 status=0
    shift
    "$@" > "$made/out" 2> "$made/err" || status=$?
    [ "$status" = "$due" ] || fail "status $status where $due is due: $*: $(cat "$made/err")"
    tries=$((tries + 1))
}

# Checks what the last command wrote.
out() { [ "$(cat "$made/out")" = "$1" ] || fail "'$(cat "$made/out")' where '$1' is due"; } # TEXT
quiet() { [ ! -s "$made/err" ] || fail "words where none are due: $(cat "$made/err")"; }
says() { grep -qF -- "$1" "$made/err" || fail "no '$1' in: $(cat "$made/err")"; } # WORDS

# Writes a trace anew with an RQ for each request: no runs.
singles() { # FILE K A
    tools/tracefile show "$1" |
        awk '!/^#/ { split($1, part, "*"); for (n = part[2] == "" ? 1 : part[2]; n > 0; n--) print part[1] }' |
        tools/tracefile make "$2" "$3" -
}

# A PATH with what tools/run and tools/build use, and no rt.
path_without_rt() {
    local command
    mkdir -p "$made/bare"
    for command in awk bash cat cmp dirname env find flock grep head mkdir mktemp readlink rm sed sha256sum sleep sort xargs; do
        ln -sf "$(command -v "$command")" "$made/bare/"
    done
    echo "$made/bare"
}
