# Of each row of a script, a file in the folder with every query behind each of its lines (asking.awk):
#
#     awk -v folder=FOLDER -f asking.awk -f rows.awk FILE..
#
# A row may begin with options of the program, as `--load=7|`; ` / ` parts its lines. Of a line with ` + ` a realm is
# given the last command alone, which does what the program is told in all of them.

function limit(name, greatest) {
    return match($1, "--" name "=[0-9]+") ? substr($1, RSTART + length(name) + 3, RLENGTH - length(name) - 3) : greatest
}

BEGIN { FS = "|"; keys = "k m user city" }
/^;/ { next }
{
    out = sprintf("%s/%04d.script", folder, ++count)
    print "# limits " limit("scopes", 4096), limit("tasks", 65536), limit("load", 1048576) > out
    split($0 ~ /^--/ ? $2 : $1, line, " / ")
    for (place = 1; place in line; place++) {
        parts = split(line[place], part, " [+] ")
        for (one = 1; one < parts; one++) print "# within\n" part[one] > out
        print part[parts] > out
        ask_all(7, 17)
    }
    close(out)
}
