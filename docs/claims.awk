# Holds a document's names against what is here. Reads specs, the theorems of proofs and src, and rust/src, for the names that each file defines, then the document, whose names it
# takes from its backquotes: names before a file are in that file, as `a`, `b` in crate/specs/File.antt; CRATE/EDIT is an edit; a name of several words, joined by _ or
# by hyphens, is that of a theorem, a definition or a function of some file.
# `edits` and `files` say what is in the repository, a line each.

function wrong(what) {
    print doc ":" FNR ": " what
    bad = 1
}

BEGIN {
    while ((getline line < edits) > 0)
        edit[line] = 1
    while ((getline line < files) > 0)
        there[line] = 1
}

FNR == 1 {
    doc = FILENAME
    key = FILENAME
    sub(/^crates\//, "", key)
}

# `name : ..`, `record name`, `data name`, `fn name`
FILENAME ~ /\.(antt|rt|rs)$/ {
    t = $0
    sub(/^ +/, "", t)
    sub(/^(abbrev |unfoldable )?(pub )?(extern "C" )?/, "", t)
    if (match(t, /^(record|data|fn|struct|enum) /))
        t = substr(t, RLENGTH + 1)
    else if (t !~ /^[^ ]+ : /)
        next
    sub(/[ (<:].*/, "", t)
    if (t ~ /^[A-Za-z]/) {
        defined[key, t] = 1
        somewhere[t] = 1
    }
    next
}

function is_file(p) {
    return (p in there) || (("crates/" p) in there)
}

# names wait for their file; a file behind another has the same names
function take_file(p,    i) {
    if (!is_file(p)) {
        wrong("there is no file " p)
        return
    }
    counted_files++
    if (p !~ /\.(antt|rt)$/)
        return
    for (i = 1; i <= waiting; i++) {
        counted_names++
        if (!((p, name[i]) in defined))
            wrong(name[i] " is not in " p)
    }
    served = 1
}

function take_name(n) {
    if (n ~ /^[a-z0-9_]+\/[A-Za-z0-9_]+$/) {
        if (n in edit)
            counted_edits++
        else if (!is_file(n))
            wrong("there is no edit or file " n)
        return
    }
    if (n !~ /^[A-Za-z][A-Za-z0-9_-]*$/)
        return
    if (n ~ /^[a-z0-9]+([_-][A-Za-z0-9]+)+$/ && !(n in somewhere))
        wrong("no file has " n)
    if (served)
        waiting = 0
    served = 0
    name[++waiting] = n
}

{
    part = split($0, cell, /[|;]/)
    for (i = 1; i <= part; i++) {
        waiting = 0
        served = 0
        t = cell[i]
        while (match(t, /`[^`]*`|[A-Za-z0-9_]+\/[A-Za-z0-9_\/]*\.[a-z]+/)) {
            found = substr(t, RSTART, RLENGTH)
            t = substr(t, RSTART + RLENGTH)
            if (found ~ /^`/)
                take_name(substr(found, 2, length(found) - 2))
            else
                take_file(found)
        }
    }
}

END {
    print counted_names + 0 " names in files, " counted_files + 0 " files, " counted_edits + 0 " edits"
    exit bad
}
