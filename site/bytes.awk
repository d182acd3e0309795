# Bytes, for the awk programs of this folder: a byte's digits, a character's number, and how what others wrote is shown. LC_ALL is C, so that a character is a byte.

BEGIN {
    for (i = 0; i < 256; i++) {
        hex[i] = sprintf("%02X", i)
        if (i > 0) code[sprintf("%c", i)] = i    # not every awk can hold a byte 00
    }
}

# Printable ASCII as it is, any other byte as strings have it, \1B: no terminal takes that for a command.
function shown(text,   c, out) {
    while (match(text, /[^ -~]/)) {
        c = substr(text, RSTART, 1)
        out = out substr(text, 1, RSTART - 1) "\\" (c in code ? hex[code[c]] : "00")
        text = substr(text, RSTART + 1)
    }
    return out text
}

# The beginning of what may be long.
function brief(text) {
    return shown(length(text) > 60 ? substr(text, 1, 57) "..." : text)
}
