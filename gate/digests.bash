# Which crates stand on which, and digests of their texts. A script sets `top` to the repository's top.
# shellcheck shell=bash
# The crates that crates.txt lists, lowest first.
crates_listed() { awk '!/^[ \t]*(#|$)/ { sub(/[ \t:].*/, ""); print }' "$top/crates.txt"; }
# lines_of NAME..: the lines of crates.txt of these crates.
lines_of() {
    awk -v names=" $* " '!/^[ \t]*(#|$)/ { sub(/[ \t]*#.*/, ""); split($0, word, /[ \t:]+/); if (index(names, " " word[1] " ")) print }' "$top/crates.txt"
}
# with_those_below NAME..: these crates and all of the repository that they stand on, lowest first.
with_those_below() {
    awk -v names="$*" '
        /^[ \t]*(#|$)/ { next }
        { split($0, half, ":"); split(half[1], word, " "); listed[++count] = word[1]; below[count] = half[2] }
        END {
            for (i = split(names, given, " "); i > 0; i--) wanted[given[i]]
            for (i = count; i > 0; i--)
                if (listed[i] in wanted) for (j = split(below[i], library, " "); j > 0; j--) wanted[library[j]]
            for (i = 1; i <= count; i++) if (listed[i] in wanted) print listed[i]
        }
    ' "$top/crates.txt"
}
# The SHA-256 of what is read.
sum() { sha256sum | cut -d ' ' -f 1; }
# files PATH..: each file at or below these paths of crates/ with its digest; a path may be missing.
files() { (cd "$top/crates" && { find "$@" -type f -print0 2>/dev/null || true; } | LC_ALL=C sort -z | xargs -0 -r sha256sum); }
# sources NAME..: the lines of crates.txt of these crates, and each file that a proof of one of them reads, without the
# lines of comments in it: no proof and no program is another by these. (No string here has a line that begins so.)
sources() {
    lines_of "$@" | LC_ALL=C sort
    (cd "$top/crates" && { find "${@/%//src}" "${@/%//specs}" "${@/%//proofs}" -type f -print0 2>/dev/null || true; } | LC_ALL=C sort -z |
        xargs -0 -r awk 'FNR == 1 { print FILENAME ":"; comment = FILENAME ~ /[.]antt$/ ? "^[ \t]*--" : "^[ \t]*//" } $0 !~ comment')
}
# sources_below NAME: the sources of the crate and of all that it stands on.
sources_below() {
    # shellcheck disable=SC2046
    sources $(with_those_below "$1")
}
