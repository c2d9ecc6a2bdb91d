# Sourced by the scripts beside it, at the top of the repository.

# build_program NAME LIBRARY..: builds the program of bench/programs/NAME, which uses these libraries of
# crates/, and sets `program` to it. It is built in a workspace of its own, which has links to the files of
# the libraries, so what was proved of them counts there too, and is gone when the script ends. The
# program's sources end in .in, since the gate wants each source of Rattle to be that of a crate of the
# repository.
build_program() {
    local name=$1
    room=$(mktemp -d "$PWD/bench/room.XXXXXX")
    trap 'rm -rf "$room"' EXIT
    cp -p HANDLES "$room"
    cp -al crates "$room"
    {
        cat crates.txt
        echo "$name: ${*:2}"
    } >"$room/crates.txt"
    cp -a "bench/programs/$name" "$room/crates"
    find "$room/crates/$name" -name '*.in' | while read -r source; do
        mv "$source" "${source%.in}"
    done
    echo "$0: building $name, and what it stands on where that was not proved yet" >&2
    # (without words a program may end with any status)
    (cd "$room/crates/$name" && rt run >"$room/build.log" 2>&1) || [[ -x $room/crates/$name/out/$name ]] || {
        grep -v "^library\|^statements" "$room/build.log" | tail -n 20 >&2
        return 1
    }
    program=$room/crates/$name/out/$name
}
