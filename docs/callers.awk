# Holds the callers that EXCEPTIONS.md names against the code. Reads what contracts.awk writes, then the document: each caller in a row's third column calls a function
# of its first, and each function of the row is called by one of them or by another of the row. A row whose callers are said in words is passed over.

function names(t, list,    n) {
    n = 0
    while (match(t, /`[A-Za-z0-9_:]+`/)) {
        list[++n] = substr(t, RSTART + 1, RLENGTH - 2)
        t = substr(t, RSTART + RLENGTH)
    }
    return n
}

function reaches(caller, callee) {
    sub(/.*::/, "", callee)
    return index(calls[caller], " " callee " ") > 0
}

NR == FNR {
    split($0, field, "\t")
    calls[field[1]] = field[5]
    next
}

/^\| `[a-z0-9_]+::/ {
    split($0, cell, "|")
    n = names(cell[2], own)
    m = names(cell[4], by)
    split("", called)
    for (j = 1; j <= m; j++) {
        found = 0
        for (i = 1; i <= n; i++)
            if (reaches(by[j], own[i]))
                found = called[i] = 1
        if (!found)
            print "EXCEPTIONS.md names a caller that calls nothing of its row: " by[j]
    }
    for (i = 1; m > 0 && i <= n; i++) {
        for (j = 1; j <= n; j++)
            if (reaches(own[j], own[i]))
                called[i] = 1
        if (!called[i])
            print "EXCEPTIONS.md names no caller of " own[i]
    }
}
