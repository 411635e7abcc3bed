# shellcheck shell=bash disable=SC2034
# Read by the scripts that run the program on real input: it builds the program where that is due, begins an empty folder
# and goes there, and has the checks that they share. "$failed" is 1 once an answer was not the one that is due.
cd "$(dirname "$0")/.." || exit 1
[ -x bin/ird ] || scripts/build || exit 1
top="$PWD"
ird="$PWD/bin/ird"
folder=$(mktemp -d) || exit 1
trap 'rm -rf "$folder"' EXIT
mkdir "$folder/grid"
cd "$folder/grid" || exit 1

home=/tempZone/home/rods
failed=0

# complain TEXT: something is not as it is due.
complain() {
    printf '%s\n' "$1" >&2
    failed=1
}

# without_marks: what was read, without the random word and the time of each mark.
without_marks() {
    sed -E 's/^([0-9]+ mark ran) [0-9]+ [0-9]+/\1/'
}

# [why=LINE] expect NAME STATUS EXPECTED WORD..: runs the program with these words over standard input, and compares what
# it wrote. On standard error it is to write LINE, or nothing where none is given.
expect() {
    local name=$1 status=$2 expected=$3 due=${why-}
    shift 3
    local said code told
    "$ird" "$@" >../said 2>../told
    code=$?
    said=$(without_marks <../said)
    told=$(cat ../told)
    printf '== ird %s\n%s\n' "$*" "$said"
    [ -z "$told" ] || printf '(%s)\n' "$told"
    if [ "$said" != "$expected" ] || [ "$code" != "$status" ]; then
        complain "$name: status $status was due, and: $expected"
    fi
    if [ "$told" != "$due" ]; then
        complain "$name: on standard error was due: $due"
    fi
}

# checksum FILE: as replies write it.
checksum() {
    printf 'sha2:'
    # shellcheck disable=SC2059
    printf "$(sha256sum "$1" | cut -c 1-64 | sed 's/../\\x&/g')" | base64
}
