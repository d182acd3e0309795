# What each function's contract asks and leaves open, by its form. Reads specs, for the records that are one equation (as `Writes`), and then src; a line each:
# crate::name, pub or -, requires or -, whole or open, and the names that it calls.
# A contract is whole where one of its `ensures` is an equation of the result, and of all that was lent to be changed, with something else; all others are open.

function unwrap(t,    i, depth, c) {
    sub(/^ +/, "", t)
    sub(/ +$/, "", t)
    if (t !~ /^\(.*\)$/)
        return t
    for (i = 1; i <= length(t); i++) {
        c = substr(t, i, 1)
        depth += (c == "(") - (c == ")")
        if (depth == 0 && i < length(t))
            return t
    }
    return substr(t, 2, length(t) - 2)
}

# what stands outside all parentheses
function outside(t) {
    while (gsub(/\([^()]*\)/, "", t));
    return t
}

# `(x : T) →` in front holds for any x
function bare(t) {
    t = unwrap(t)
    while (sub(/^\([^()]* : [^()]*\) → /, "", t));
    return t
}

function is_equation(t) {
    t = outside(t)
    return gsub(/≡/, "", t) == 1 && t !~ /→|×|⊎|↔/
}

function has(t, name) {
    return (" " t " ") ~ ("[^A-Za-z0-9_.'-]" name "[^A-Za-z0-9_'-]")
}

# what a lent value is at the return, all of it and not a part
function has_left(t, name) {
    return (" " t " ") ~ ("[^A-Za-z0-9_.'-]" name "[.]new[^A-Za-z0-9_.'-]")
}

# the result on one side alone, and nothing that was left on the other
function splits(t,    n, piece, i, left, right) {
    n = split(t, piece, " ≡ ")
    left = piece[1]
    for (i = 2; i <= n && outside(left) ~ /[()]/; i++)
        left = left " ≡ " piece[i]
    for (; i <= n; i++)
        right = right " " piece[i]
    if (has(left, "result"))
        return !has(right, "result") && right !~ /[.]new/
    return has(right, "result") && left !~ /[.]new/
}

function is_whole(t,    i, first) {
    t = bare(t)
    for (i = 1; i <= lent; i++)
        if (!has_left(t, mutable[i]))
            return 0
    first = t
    sub(/ .*/, "", first)
    if (first in equation)
        return has(t, "result")
    if (is_equation(t))
        return splits(t)
    return index(t, "(result ≡ true) ↔ ") == 1
}

# ---- records of specs: a field stands two deep, and what is deeper goes on with it

function end_record() {
    if (record != "" && fields == 1 && (is_equation(bare(field)) || field ~ /^\([a-z]+ ≡ true\) ↔ /))
        equation[record] = 1
    record = ""
}

FNR == 1 {
    end_record()
    split(FILENAME, path, "/")
    type = ""
    name = ""
}

FILENAME ~ /\.antt$/ {
    if ($0 ~ /^pub record /) {
        end_record()
        record = $3
        fields = 0
    } else if (record != "" && $0 ~ /^  [^ ].* : /) {
        if ($0 ~ /^  --/)
            next
        fields++
        field = $0
        sub(/^  (pub )?[^ ]+ : /, "", field)
    } else if (record != "" && $0 ~ /^   /) {
        sub(/^ +/, " ")
        field = field $0
    } else if ($0 !~ /^  --/)
        end_record()
    next
}

# ---- functions of src

function begin_function() {
    open_to = ($0 ~ /^ *pub[ (]/) ? "pub" : "-"
    name = $0
    sub(/^.*fn /, "", name)
    sub(/[(<].*/, "", name)
    name = path[2] "::" type name
    head = ""
    calls = " "
    inside = 0
}

# the clauses of a head that is read as far as its body's brace; 0 where that is still to come
function takes_head(    rest, at, before, i, depth, c, kind) {
    asks = "-"
    promises = 0
    rest = head
    signature = ""
    while ((at = index(rest, "{")) > 0) {
        before = substr(rest, 1, at - 1)
        rest = substr(rest, at + 1)
        if (signature == "")
            signature = before
        if (!match(before, / (requires|ensures|ghost)[*]?( [a-z0-9_]+)? $/)) {
            head = rest
            return 1
        }
        kind = substr(before, RSTART + 1)
        sub(/ .*/, "", kind)
        depth = 1
        for (i = 1; depth > 0; i++) {
            if (i > length(rest))
                return 0
            c = substr(rest, i, 1)
            depth += (c == "{") - (c == "}")
        }
        if (kind ~ /^requires/)
            asks = "requires"
        if (kind == "ensures")
            promise[++promises] = substr(rest, 1, i - 2)
        rest = substr(rest, i)
    }
    return 0
}

function begin_body(    i) {
    inside = 1
    lent = 0
    while (match(signature, /[a-z0-9_]+: &mut /)) {
        mutable[++lent] = substr(signature, RSTART, RLENGTH - 7)
        signature = substr(signature, RSTART + RLENGTH)
    }
    whole = "open"
    for (i = 1; i <= promises; i++)
        if (is_whole(promise[i]))
            whole = "whole"
}

function take_calls(body) {
    gsub(/::<[^()]*>\(/, "(", body)
    while (match(body, /[A-Za-z_0-9]+\(/)) {
        calls = calls substr(body, RSTART, RLENGTH - 1) " "
        body = substr(body, RSTART + RLENGTH)
    }
}

function end_function() {
    if (name != "")
        print name "\t" open_to "\t" asks "\t" whole "\t" calls
    name = ""
}

/^impl/ {
    type = $0
    sub(/ *\{.*/, "", type)
    sub(/^impl(<[^ ]*>)? /, "", type)
    sub(/^.* for /, "", type)
    sub(/<.*/, "", type)
    type = type "::"
}
/^ *(pub(\([a-z]+\))? )?((const|unsafe|extern "C") )*fn / { end_function(); begin_function() }
name != "" && !inside {
    line = $0
    sub(/ *\/\/ .*/, "", line)
    head = head " " line
    if (takes_head()) {
        begin_body()
        take_calls(head)
    }
    next
}
name != "" { take_calls($0) }
/^}/ || (/^    }/ && type != "") { end_function() }
/^}/ { type = "" }
