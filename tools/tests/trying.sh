# shellcheck shell=sh disable=SC2034,SC2154
# Shared by the scripts that try a tool at the root: a folder, faults, and runs whose output is compared.
#
# Such a script sets try (its own name) and tool, and reads this first: . "$(dirname "$0")/trying.sh". Then it is at the root, and has
#   room                              a folder for what is made, which is gone when the script ends
#   faults, tried                     the number of faults reported, the number of runs compared with something
#   fault WORDS                       reports a fault
#   expect STATUS OUT WORDS ARG...    runs the tool on ARG...: its exit status, what it prints (OUT is a file), what it says on standard
#                                     error (WORDS is a pattern). Standard input is the file $input, if that is set
#   tells STATUS LINE WORDS ARG...    the same, where it prints the one line LINE, or nothing
#   says STATUS ARG...                the same, where it prints what is on standard input, and says nothing
#   made NAME                         makes the table file $room/NAME of a text on standard input
#   in_readme FILE WORDS              README shows these lines, each with four spaces before it
cd "$(dirname "$0")" || exit 2
until [ -f crates.txt ]; do
    [ "$PWD" != / ] && cd .. || exit 2
done
room=$(mktemp -d) || exit 2
trap 'rm -rf "$room"' EXIT
faults=0 tried=0 input=

fault() {
    echo "$try: $*"
    faults=$((faults + 1))
}

expect() {
    status=$1 out=$2 words=$3
    shift 3
    "./$tool" "$@" >"$room/out" 2>"$room/err" <"${input:-/dev/null}"
    got=$?
    [ "$got" -eq "$status" ] || fault "$*: exit status $got, expected $status"
    cmp -s "$room/out" "$out" || { fault "$*: wrote something else than expected:"; diff "$out" "$room/out"; }
    # shellcheck disable=SC2254
    case $(cat "$room/err") in $words) ;; *) fault "$*: said on standard error: $(cat "$room/err")" ;; esac
    tried=$((tried + 1))
}

tells() {
    status=$1 line=$2 words=$3
    shift 3
    printf '%s' "${line:+$line
}" >"$room/line"
    expect "$status" "$room/line" "$words" "$@"
}

says() {
    cat >"$room/expected"
    status=$1
    shift
    expect "$status" "$room/expected" '' "$@"
}

made() {
    cat >"$room/$1.txt"
    python3 tools/tables.py file "$room/$1.txt" "$room/$1" || fault "tables.py cannot make $1"
}

in_readme() {
    sed 's/^./    &/' "$1" >"$room/shown"
    python3 -c 'import sys; sys.exit(open(sys.argv[1]).read() not in open("README.md").read())' "$room/shown" || fault "README does not show $2"
}
