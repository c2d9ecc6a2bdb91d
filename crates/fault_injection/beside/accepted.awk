# What each script has of commands that its book accepted and recorded, a line `#.` behind those of each; the journals that
# were left, in the same order, go to JOURNALS. Of a script that retires only that line is written, of both:
#
#     awk -v replies=FILE -v left=FILE -v journals=FILE -f accepted.awk SCRIPT..

function finish(    line) {
    if (!retires) printf "%s", accepted
    print "#."
    while ((getline line <left) > 0 && line != "#.") if (!retires) print line > journals
    print "#." > journals
    accepted = retires = ""
}

FNR == 1 && NR > 1 { finish() }
/^#/ { next }
{
    getline reply <replies
    if (reply ~ /^retired/) retires = 1
    # (a journal has one space between words, and names the default joiner)
    $1 = $1
    if ($1 == "open" && $3 !~ /^(all|any|await|until)/) sub(/^open [0-9]+/, "& await-ok")
    if (reply !~ /^(refused|already)/ && $1 !~ /^(state|stage|result|fault|cause|until|counts|get)$/) accepted = accepted $0 "\n"
}
END { finish() }
