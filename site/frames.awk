# The program of site/frames. A statement (texts.awk) is cut into tokens, these are read into words and a text, both in hexadecimal, and those make a frame.
# All lines are held back until the end, so that a text with a mistake writes none.

BEGIN {
    for (i = 0; i < 256; i++) value[hex[i]] = i
    names("i32 i64 f32 f64 v128", value_kind)
    names("func extern any none noextern nofunc eq struct array i31 exn noexn cont nocont", heap_kind)
    names("funcref externref anyref nullref nullexternref nullfuncref eqref structref arrayref i31ref exnref nullexnref contref nullcontref", short_kind)
    split("70 6F 6E 71 72 73 6D 6B 6A 6C 69 74 68 75", heap_byte, " ")
    section["types"] = 1; section["imports"] = 2; section["tables"] = 4; section["elements"] = 9; section["data"] = 11
    gather()
    for (current = 1; current <= statements; current++) {
        wrong = 0
        if (current in rival) mistake("the finish of all texts stands in " rival[current])
        cut(said[current])
        if (!wrong) statement()
    }
    if (mistakes) exit 2
    for (i = 1; i <= frames; i++) print frame[i]
}

# Numbers each name of a list, from 0.
function names(list, into,   i, n, parts) {
    n = split(list, parts, " ")
    for (i = 1; i <= n; i++) into[parts[i]] = i - 1
}

# Names the first mistake of a line. Reading goes on, to nothing.
function mistake(what) {
    if (!wrong) print place[current] ": " what > "/dev/stderr"
    wrong = mistakes = 1
}

# ---- Tokens ----

function cut(line,   i, n, c) {
    tokens = 0
    at = i = 1
    n = length(line)
    while (i <= n) {
        c = substr(line, i, 1)
        if (c == "#") return
        if (c == " " || c == "\t") i++
        else if (c == "\"") i = cut_string(line, i + 1, n)
        else if (c == "(" || c == ")") { keep("word", c); i++ }
        else i = cut_word(line, i, n)
    }
}

function keep(what, token) {
    kind[++tokens] = what
    held[tokens] = token
}

function cut_word(line, i, n,   from) {
    for (from = i; i <= n && index(" \t#\"()", substr(line, i, 1)) == 0; i++) continue
    keep("word", substr(line, from, i - from))
    return i
}

# A string is held as the hexadecimal of its bytes, since not every awk can hold a byte 00. One that fits no frame is left at once, since adding to it takes ever longer.
function cut_string(line, i, n,   c, bytes) {
    for (; i <= n; i++) {
        if (length(bytes) > 8192) { mistake("a string has over 4096 bytes, more than a line holds: use several statements"); return n + 1 }
        c = substr(line, i, 1)
        if (c == "\"") { keep("string", bytes); return i + 1 }
        if (c != "\\") { bytes = bytes byte_of(c); continue }
        c = substr(line, i + 1, 2)
        if (c ~ /^["\\]/) { bytes = bytes byte_of(substr(c, 1, 1)); i++ }
        else if (c ~ /^[0-9A-Fa-f][0-9A-Fa-f]$/) { bytes = bytes toupper(c); i += 2 }
        else mistake("a \\ in a string is followed by \", \\ or two hexadecimal digits")
    }
    mistake("a string is not closed")
    return i
}

function byte_of(c) {
    if (c in code) return hex[code[c]]
    mistake("a byte 00 in a string is written \\00")
    return ""
}

# The next token if it is a word; "" where it is a string, or none is left.
function next_word() {
    return at <= tokens && kind[at] == "word" ? held[at] : ""
}

function found() {
    return kind[at] == "string" ? "a string" : "'" brief(held[at]) "'"
}

function wanted(what) {
    mistake(what " is wanted, " (at > tokens ? "but the line ends" : "not " found()))
}

# Takes a word if it is the next token.
function took(word) {
    if (next_word() != word) return 0
    at++
    return 1
}

function need(word) {
    if (!took(word)) wanted("'" word "'")
}

function need_string() {
    if (at <= tokens && kind[at] == "string") return held[at++]
    wanted("a string in quotes")
    return ""
}

function is_number(word) {
    return word ~ /^-?[0-9]+$/ || word ~ /^0x[0-9A-Fa-f]+$/
}

function need_number(low, high,   n) {
    if (!is_number(next_word())) { wanted("a number"); return 0 }
    n = held[at] ~ /^0x/ ? from_hex(substr(held[at], 3)) : held[at] + 0
    if (n < low || n > high) mistake(sprintf("%s is not from %.0f to %.0f", brief(held[at]), low, high))
    at++
    return wrong ? 0 : n
}

function from_hex(digits,   i, n) {
    digits = toupper(digits)
    for (i = 1; i <= length(digits); i++) n = n * 16 + value["0" substr(digits, i, 1)]
    return n
}

function need_u32() { return need_number(0, 4294967295) }

# Pairs of digits, in one token or several.
function need_hex(   bytes, from) {
    for (from = at; next_word() ~ /^([0-9A-Fa-f][0-9A-Fa-f])+$/; at++) bytes = bytes toupper(held[at])
    if (from == at) wanted("a run of pairs of hexadecimal digits")
    return bytes
}

# ---- Bytes ----

# The lowest bytes of a number, low first.
function low_first(n, bytes,   out) {
    for (; bytes > 0; bytes--) { out = out hex[n % 256]; n = int(n / 256) }
    return out
}

# Signed LEB128: seven bits a byte. The low seven bits go first; taking them off and dividing is the shift that keeps the sign. A last byte has -64 to 63.
function signed(n,   low, out) {
    while (n < -64 || n > 63) {
        low = n % 128
        if (low < 0) low += 128
        out = out hex[low + 128]
        n = (n - low) / 128
    }
    return out hex[n < 0 ? n + 128 : n]
}

function unsigned(n,   out) {
    for (; n > 127; n = int(n / 128)) out = out hex[n % 128 + 128]
    return out hex[n]
}

# ---- Parts of records ----

function put(n) { words = words low_first(n, 4) }

# Two words, and the bytes into the text.
function put_span(bytes) {
    put(length(text) / 2)
    put(length(bytes) / 2)
    text = text bytes
}

# Awk counts exactly to 2 to the 53rd, so greater numbers are left to 'record'.
function put_64(n) {
    put(n % 4294967296)
    put(int(n / 4294967296))
}

# A heap type's kind, with its index in heap_index.
function need_heap(   word) {
    word = next_word()
    heap_index = 0
    if (word in heap_kind) { at++; return heap_kind[word] }
    if (took("exact")) { heap_index = need_u32(); return 15 }
    if (!is_number(word)) wanted("a heap type")
    heap_index = need_u32()
    return 14
}

# funcref and the like, or: ref [null] [shared] HEAP. Words h and x.
function put_reference(   word, high) {
    word = next_word()
    if (word in short_kind) { at++; put(short_kind[word] + 16); put(0); return }
    if (!took("ref")) wanted("a reference type")
    if (took("null")) high += 16
    if (took("shared")) { high += 32; if (!(next_word() in heap_kind)) wanted("func, extern or another named heap type") }
    put(need_heap() + high)
    put(heap_index)
}

function put_value_type(   word) {
    word = next_word()
    if (word in value_kind) { at++; put(value_kind[word]); put(0); put(0); return }
    if (word != "ref" && !(word in short_kind)) wanted("a value type")
    put(5)
    put_reference()
}

# ( TYPE .. ), with its count first.
function put_value_types(   before, n) {
    need("(")
    before = words
    words = ""
    for (; !wrong && next_word() != ")"; n++) put_value_type()
    need(")")
    words = before low_first(n + 0, 4) words
}

# MIN [MAX]
function put_limits(   min) {
    min = need_number(0, 9007199254740991)
    if (!is_number(next_word())) { put(0); put_64(min); put_64(0); return }
    put(1)
    put_64(min)
    put_64(need_number(0, 9007199254740991))
}

# A constant expression of one instruction, with its 0B; a number alone is an i32. 'hex' is for any other, and brings its own 0B.
function need_expression() {
    if (took("hex")) return need_hex()
    if (took("i64")) return "42" signed(need_number(-9007199254740991, 9007199254740991)) "0B"
    if (took("global")) return "23" unsigned(need_u32()) "0B"
    if (took("func")) return "D2" unsigned(need_u32()) "0B"
    if (took("null")) return need_null()
    took("i32")
    return "41" signed(need_number(-2147483648, 2147483647)) "0B"
}

function need_null(   word) {
    word = next_word()
    if (!(word in heap_kind)) { wanted("func, extern or another named heap type"); return "" }
    at++
    return "D0" heap_byte[heap_kind[word] + 1] "0B"
}

# Strings, u8, u16 and u32 with one number or more, and hex, up to the end of the line.
function need_contents(   bytes) {
    while (at <= tokens && !wrong) {
        if (kind[at] == "string") bytes = bytes held[at++]
        else if (took("hex")) bytes = bytes need_hex()
        else if (took("u8")) bytes = bytes need_values(1, 255)
        else if (took("u16")) bytes = bytes need_values(2, 65535)
        else if (took("u32")) bytes = bytes need_values(4, 4294967295)
        else wanted("a string or one of u8, u16, u32, hex")
    }
    return bytes
}

function need_values(size, high,   bytes) {
    do bytes = bytes low_first(need_number(0, high), size)
    while (!wrong && is_number(next_word()))
    return bytes
}

# ---- Statements ----

function statement(   word) {
    words = text = ""
    word = next_word()
    at++
    if (word == "type") add_type()
    else if (word == "import") add_import()
    else if (word == "table") add_table()
    else if (word == "elements") add_elements()
    else if (word == "data") add_data()
    else if (word == "record") add_record()
    else if (word == "finish") finish()
    else if (word == "line") ready_line()
    else { at--; wanted("one of type, import, table, elements, data, finish, record, line") }
    if (at <= tokens) mistake(found() " is left over behind the statement")
}

# type ( TYPE .. ) -> ( TYPE .. ): a final subtype without supertypes, in no group
function add_type(   i) {
    put(1); put(0); put(1); put(1)
    for (i = 0; i < 7; i++) put(0)
    put_value_types()
    need("->")
    put_value_types()
    add()
}

# import "MODULE" "NAME" ENTITY
function add_import() {
    put(2); put(0)
    put_span(need_string())
    put_span(need_string())
    if (took("func")) { put(0); put(need_u32()) }
    else if (took("table")) { put(1); put_reference(); put_limits() }
    else if (took("memory")) { put(2); put_limits() }
    else if (took("global")) { put(3); put_value_type(); put(took("mut")) }
    else if (took("tag")) { put(4); put(need_u32()) }
    else wanted("one of func, table, memory, global, tag")
    add()
}

# table REFERENCE MIN [MAX] [init EXPRESSION]: the flag stands before what shows it
function add_table(   type, given) {
    put_reference()
    put_limits()
    type = words
    given = took("init")
    words = ""
    put(4)
    put(given)
    words = words type
    if (given) put_span(need_expression())
    else { put(0); put(0) }
    add()
}

# elements passive|declared|[table N] at OFFSET functions N .. | expressions REFERENCE EXPRESSION ..
function add_elements() {
    put(9)
    if (took("passive")) put_unplaced(0)
    else if (took("declared")) put_unplaced(1)
    else put_placed()
    if (took("functions")) put_functions()
    else if (took("expressions")) put_expressions()
    else wanted("one of functions, expressions")
    add()
}

function put_unplaced(mode) {
    put(mode); put(0); put(0); put(0); put(0)
}

function put_placed(   given) {
    put(2)
    given = took("table")
    put(given)
    put(given ? need_u32() : 0)
    need_at()
    put_span(need_expression())
}

function need_at() {
    if (!took("at")) wanted("at, or passive,")
}

function put_functions(   before, n) {
    put(0); put(0); put(0)
    before = words
    words = ""
    for (; at <= tokens && !wrong; n++) put(need_u32())
    words = before low_first(n + 0, 4) words
}

function put_expressions(   before, n) {
    put(1)
    put_reference()
    before = words
    words = ""
    for (; at <= tokens && !wrong; n++) put_span(need_expression())
    words = before low_first(n + 0, 4) words
}

# data passive|[memory N] at OFFSET CONTENTS
function add_data() {
    put(11)
    if (took("passive")) { put(0); put(0); put(0); put(0) }
    else {
        put(1)
        put(took("memory") ? need_u32() : 0)
        need_at()
        put_span(need_expression())
    }
    put_span(need_contents())
    add()
}

# record WORD .. [text CONTENTS]: any record, right or not
function add_record() {
    while (is_number(next_word())) put(need_u32())
    if (took("text")) text = need_contents()
    add()
}

# finish SECTION ..: the order list. 'count' stands for the data count section, and may be followed by another count than that of the data so far.
function finish(   order, count, word) {
    count = segments + 0
    while (at <= tokens && !wrong) {
        word = next_word()
        if (word in section) { at++; order = order hex[section[word]] }
        else if (took("id")) order = order hex[need_number(0, 255)]
        else if (took("count")) { order = order "0C"; if (is_number(next_word())) count = need_u32() }
        else wanted("one of types, imports, tables, elements, count, data, id")
    }
    emit("02" low_first(count, 4) order)
}

# line DIGITS: a line that is ready, right or not
function ready_line() {
    if (next_word() == "") { wanted("a ready line"); return }
    if (held[at] ~ /^01....0B000000/) segments++
    frame[++frames] = held[at++]
}

# ---- Frames ----

function add() {
    if (substr(words, 1, 8) == "0B000000") segments++
    emit("01" low_first(length(words) / 8, 2) words text)
}

# The last byte makes the sum of all bytes wrap to 00.
function emit(bytes,   i, sum) {
    if (length(bytes) + 2 > 8192) mistake("the frame has " length(bytes) + 2 " digits, and a line holds 8192: use several statements")
    if (wrong) return
    for (i = 1; i < length(bytes); i += 2) sum += value[substr(bytes, i, 2)]
    frame[++frames] = bytes hex[(256 - sum % 256) % 256]
}
