# The program scopectl: which one is proved and built of these sources, the carried one or that which was built
# here. A script sets `top` and sources this file.
# A program's line is its own digest, that of its sources, the day and the toolchain: carried/line is that of
# carried/scopectl, and what was built below crates/NAME/out has its line beside it, with `.built` behind its name.
# shellcheck shell=bash source=gate/digests.bash
source "$top/gate/digests.bash"
give_up() { echo "$(basename "$0"): $1" >&2 && exit 4; }
# is_of_line FILE LINE: whether the file, a program or an archive, is that of the line.
is_of_line() { [[ -x $1 || $1 == *.a ]] && [[ -f $1 && -f $2 && $(sum <"$1") == "$(cut -d ' ' -f 1 "$2")" ]]; }
# sources_of_line LINE: the digest of the sources, or nothing if there is no line.
sources_of_line() { [[ ! -f $1 ]] || cut -d ' ' -f 2 "$1"; }
# Whether the carried program is whole, and of this kind of machine.
is_carried() { [[ $(uname -sm) == "Linux x86_64" ]] && is_of_line "$top/carried/scopectl" "$top/carried/line"; }
# keep_built CRATE FILE..: takes these for what was built here from the crate's sources.
keep_built() {
    local out="$top/crates/$1/out" file line
    line="$(sources_below "$1" | sum) $(date -u +%F) $(rt version)"
    mkdir -p "$out"
    for file in "${@:2}"; do
        [[ $file -ef $out/$(basename "$file") ]] || { cp "$file" "$out/new" && mv "$out/new" "$out/$(basename "$file")"; }
        echo "$(sum <"$file") $line" >"$out/$(basename "$file").built"
    done
}
# built_of CRATE FILE SOURCES: what was built here from these sources of the crate, or nothing.
built_of() {
    local out="$top/crates/$1/out"
    [[ $(sources_of_line "$out/$2.built") != "$3" ]] || ! is_of_line "$out/$2" "$out/$2.built" || echo "$out/$2"
}
# program_at_hand SOURCES: the program of these sources, carried or built here, or nothing.
program_at_hand() {
    if [[ $(sources_of_line "$top/carried/line") == "$1" ]] && is_carried; then echo "$top/carried/scopectl"; else built_of scopectl scopectl "$1"; fi
}
# program_of SOURCES: the program of these sources. If there is none, it is built, which proves it.
program_of() {
    local out="$top/crates/scopectl/out"
    if [[ -z $(program_at_hand "$1") ]]; then
        command -v rt >/dev/null || give_up "the toolchain's command rt is not on the PATH (README.md says what it is); --carried runs the program that the repository carries"
        mkdir -p "$out"
        echo "building scopectl and what it stands on; crates/scopectl/out/build.log has what the toolchain says" >&2
        (cd "$top/crates/scopectl" && exec rt run -- --version) </dev/null >"$out/build.log" 2>&1 || give_up "it could not be built: $(tail -n 20 "$out/build.log")"
        keep_built scopectl "$out/scopectl"
    fi
    program_at_hand "$1"
}
