# What the tests of a built scopectl have in common; sourced by them with the program as their first word.
program=$(realpath "$1")
cd "$(dirname "$0")/../.." || exit
room=$(mktemp -d)
trap 'rm -rf "$room"' EXIT
failed=0

complain() {
    echo "test: $program $1" >&2
    failed=1
}

# rows NAME: the file `rows` has the rows of the file crates/scopectl/rows/NAME, of which there are some. Lines
# that begin with `;` say what stands below them.
rows() {
    grep -v '^;' "crates/scopectl/rows/$1" >"$room/rows" || complain "has no rows in crates/scopectl/rows/$1"
}

# lines TEXT: the lines that ` / ` parts, each ended by a line feed; where the text ends in `\c`, the last one is
# not. Other bytes may be written as for printf.
lines() {
    printf '%b' "${1// \/ /\\n}\\n"
}

# so_many COUNT BYTE: so many of the byte
so_many() {
    printf "%$1s" '' | tr ' ' "$2"
}

# ends STATUS SAID WORDS..: the program ends with the status, and what it says on standard error begins
# with SAID, or is nothing where that is empty. Streams are as the caller gives them.
ends() {
    local wanted=$1 said=$2 status=0 errors=''
    shift 2
    "$program" "$@" 2>"$room/errors" || status=$?
    [[ ! -s $room/errors ]] || errors=$(<"$room/errors")
    ((status == wanted)) || complain "$* ended with $status, not $wanted${errors:+, and said: $errors}"
    [[ $errors == "$said"* && (-n $said || -z $errors) ]] || complain "$* said '$errors', not '$said'"
}

# notes REPLIES: what is said on standard error where a script has these replies: how many lines were refused
notes() {
    awk '$1 == "refused" { all++; bad += $2 == 18 } END { if (all) print "scopectl: lines refused: " all ", not a command: " bad + 0 }' "$1"
}

# plays PAGE: each command that the page shows behind a `$` says what stands below it, up to a line that isn't indented;
# lines up to END belong to a command that ends with <<'END'
plays() {
    local page=$1 line command='' inside='' wanted='' played=0
    while IFS= read -r line; do
        if [[ $line == '    $ '* ]]; then
            command=${line#'    $ '} wanted=''
            [[ $line != *"<<'END'" ]] || inside=yes
        elif [[ -n $inside ]]; then
            command+=$'\n'${line#'    '}
            [[ $line != '    END' ]] || inside=''
        elif [[ -n $command && $line == '    '* ]]; then
            wanted+=${line#'    '}$'\n'
        elif [[ -n $command ]]; then
            eval "${command//.\/scopectl/\"\$program\"}" </dev/null >"$room/written" 2>&1 || true
            [[ $(<"$room/written")$'\n' == "$wanted" ]] || complain "${command%%$'\n'*} of $page says '$(<"$room/written")', not '$wanted'"
            command='' played=$((played + 1))
        fi
    done < <(cat "$page" && echo)
    ((played > 0)) || complain "plays nothing of $page"
}
