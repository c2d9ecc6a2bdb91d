# Of each script the lines that a realm under its lock may be given, by what the program answered to them:
#
#     awk -v wanted=FILE -f calls.awk SCRIPT..
#
# writes beside each NAME.script, whose replies stand in NAME.answers, a file NAME.calls; and for all of them the
# file `wanted`, which has each command and query there with the program's reply behind a `|`.

# Whether the call would not wait, and is one call. A join waits where the program refuses it as not ready. A close ends what
# it covers too, so it is made where the program ends the scope alone, or refuses it before all that.
function may_call(line, reply) {
    if (line ~ /^join /) return reply !~ /^refused 11 /
    if (line ~ /^closed /) return reply !~ /^refused / || reply ~ /^refused (1|2|3|20) /
    return 1
}

function sift(script,    name, line, reply, is_within) {
    name = substr(script, 1, length(script) - length(".script"))
    is_within = 0
    while ((getline line < script) > 0) {
        if (line ~ /^#/) {
            is_within = line == "# within"
            if (!is_within) print line > (name ".calls")
            continue
        }
        reply = "nothing"
        getline reply < (name ".answers")
        if (!is_within && may_call(line, reply)) {
            print line > (name ".calls")
            print line "|" reply > wanted
        }
        is_within = 0
    }
    close(script); close(name ".answers"); close(name ".calls")
}

BEGIN { for (place = 1; place < ARGC; place++) sift(ARGV[place]) }
