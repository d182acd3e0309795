# The program of site/answers: each answer of standard input in words, beside its statement where texts are given.

BEGIN {
    meaning[1] = "the store is over its limit, or the room used is above its length"
    meaning[2] = "the words are no record, are more than 4,096, or some are left over"
    meaning[3] = "the text is too long, or a span ends past it"
    meaning[4] = "a name is not UTF-8"
    meaning[5] = "an expression is not a constant expression"
    meaning[6] = "the item is over 65,536 bytes"
    meaning[7] = "the store has no room left for the item"
    meaning[8] = "the order list is too long, or has an id that is none of 1, 2, 4, 9, 11, 12"
    meaning[9] = "the frames in the store do not end at the room used"
    meaning[10] = "the output is shorter than the result"
    meaning[11] = "no item of that section, or no number of that kind, begins the bytes"
    meaning[12] = "the hex line is malformed, too long, or has a wrong sum"
    gather()
}

{ sub(/\r$/, ""); print (NR in place ? place[NR] : "answer " NR) ": " in_words($0) beside(NR) }

END {
    if (!strange && ARGC > 1 && NR != statements) fail(NR " answers to " statements + 0 " statements")
    exit strange ? 2 : refused
}

function beside(i) {
    if (!(i in said)) return ""
    gsub(/\t/, " ", said[i])
    return "  | " brief(said[i])
}

function in_words(answer,   n) {
    n = index("0123456789ABC", substr(answer, 2, 1)) - 1
    if (answer !~ /^0[0-9A-C]/ || length(answer) % 2 || (n > 0 && length(answer) > 2)) return fail("no answer: " brief(answer))
    if (n > 0) { refused = 1; return n " refused: " meaning[n] }
    return length(answer) == 2 ? "0 accepted" : "0 accepted: a module of " length(answer) / 2 - 1 " bytes"
}

function fail(what) {
    strange = 1
    print "site/answers: " what > "/dev/stderr"
    return what
}
