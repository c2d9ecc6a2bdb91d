# Says which kinds of reply were met too seldom: awk -v who=NAME -f met.awk KINDS LINES, where LINES are those of scripts,
# each with its reply behind a `|`. In KINDS a form has the kinds of its replies behind a `:`, refusals by their
# numbers; one with a `*` is the program's alone, since nobody holds what such a call of a realm needs, or it would
# wait. A reply of another kind fails. Each kind has to be met, each form to be accepted and refused twenty times, and so often scopes to be
# cancelled by each kind of cause, from around, and to be opened with a shield.

function kind_of(reply,    part) {
    split(reply, part, " ")
    if (part[1] ~ /^(refused|outcome|state|stage)$/) return part[2]
    if (part[1] == "task" || (part[1] == "cancelled" && part[3] != "")) return part[3]
    return part[1] == "closed" && part[2] != "" ? part[2] : part[1]
}

function side_of(form, kind) { return form (kind ~ /^[0-9]/ ? " refused" : " accepted") }

# The scope of a query's reply `cancelled P KIND` is another one than that it asks for.
function is_from_around(query, reply,    asked, part) {
    split(query, asked, " ")
    split(reply, part, " ")
    return part[1] == "cancelled" && part[2] != asked[2]
}

function expect(form, kind,    program_alone) {
    program_alone = sub(/[*]$/, "", kind)
    listed[form " " kind] = 1
    if (program_alone && who == "realm") return
    least[form " " kind] = form == "cause" && kind ~ /^[a-z]/ ? 20 : 1
    least[side_of(form, kind)] = 20
}

BEGIN { least["cause from around"] = least["open with a shield"] = 20 }
FNR == 1 { file++; FS = file == 1 ? " " : "|"; $0 = $0 }
file == 1 { sub(/:$/, "", $1); for (place = 2; place <= NF; place++) expect($1, $place); next }
{
    form = substr($1, 1, index($1, " ") - 1)
    kind = kind_of($2)
    met[form " " kind]++
    if (form != "" && !(form " " kind in listed)) { print "  " $1 ": " $2 " is no reply of it"; failed = 1 }
    met[side_of(form, kind)]++
    if (form == "cause" && is_from_around($1, $2)) met["cause from around"]++
    if (form == "open" && kind == "scope" && $1 ~ / shield$/) met["open with a shield"]++
}
END {
    for (what in least) if (met[what] < least[what]) {
        print "  " what ": " met[what] + 0 " of " least[what]
        failed = 1
    }
    exit failed
}
