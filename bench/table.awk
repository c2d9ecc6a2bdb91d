# Reads lines RUN FORM TIME, and prints for each form, in the order in which the forms came, the median of its
# times, the least, and the median of what it takes in one run by the bare row of the same kind in that run.
# `bares` says which row that is: PATTERN=FORM, divided by blanks, of which the first counts that matches the
# form; a form that none matches has no ratio. `unit` divides the times, `digits` stand behind the point.

function median(list, count,    i, j, held) {
    for (i = 2; i <= count; i++) {
        held = list[i]
        for (j = i - 1; j > 0 && list[j] > held; j--) list[j + 1] = list[j]
        list[j + 1] = held
    }
    return list[int((count + 1) / 2)]
}

function bare_of(form,    i) {
    for (i = 1; i <= rules; i++)
        if (form ~ pattern[i]) return row[i]
    return ""
}

BEGIN {
    rules = split(bares, rule, " ")
    for (i = 1; i <= rules; i++) {
        cut = index(rule[i], "=")
        pattern[i] = substr(rule[i], 1, cut - 1)
        row[i] = substr(rule[i], cut + 1)
    }
    if (!unit) unit = 1
    if (digits == "") digits = 2
}

{
    if (!($2 in seen)) { seen[$2] = 1; forms[++formed] = $2 }
    if (!($1 in ran)) { ran[$1] = 1; runs[++count] = $1 }
    time[$1, $2] = $3
}

END {
    for (f = 1; f <= formed; f++) {
        form = forms[f]
        bare = bare_of(form)
        times = ratios = 0
        for (r = 1; r <= count; r++) {
            if (!((runs[r], form) in time)) continue
            all[++times] = time[runs[r], form]
            if (bare != "" && bare != form && time[runs[r], bare] > 0)
                of_bare[++ratios] = time[runs[r], form] / time[runs[r], bare]
        }
        middle = median(all, times)
        ratio = ratios ? sprintf("%9.3f of %s", median(of_bare, ratios), bare) : ""
        printf "%-26s %9.*f median %9.*f least %s\n", form, digits, middle / unit, digits, all[1] / unit, ratio
    }
}
