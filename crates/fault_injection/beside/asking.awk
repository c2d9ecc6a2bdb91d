# Every query of a script, for the scripts that test-beside plays; `keys` are the names that are bound, and
# `out` is where the lines go.

function ask_scope(s) { printf "cause %d\nuntil %d\ncounts %d\n", s, s, s > out }

function ask_task(t,    key, part) {
    printf "state %d\nstage %d\n", t, t > out
    for (key = split(keys, part, " "); key > 0; key--) printf "get %d %s\n", t, part[key] > out
}

function ask_ends(a, t) { printf "result %d %d\nfault %d %d\n", a, t, a, t > out }

# All of the scopes, tasks and actors up to the number, and what is shown of the scopes that a row may have.
function ask_all(most, shown,    n, a) {
    for (n = 0; n <= most; n++) {
        ask_scope(n)
        ask_task(n)
        for (a = 0; a <= most; a++) ask_ends(a, n)
    }
    print "# show " shown > out
}
