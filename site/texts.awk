# The statements of the texts that are given, as they are handed over: a text's in its order, the texts in the order of the arguments; but a finish is of all
# texts, so where there are several it comes behind all adds. Empty lines and comments are none.

# said[i] is the statement at place[i], for i from 1 to statements; rival[i] is where another text has a finish, if this is one too.
function gather(   i) {
    for (i = 1; i < ARGC; i++) {
        gather_text(ARGV[i], i)
        ARGV[i] = ""    # standard input is read behind it
    }
    for (i = 1; i <= late; i++) {
        hand_over(late_said[i], late_place[i])
        if (late_feed[i] != late_feed[1]) rival[statements] = late_place[1]
    }
}

function gather_text(path, feed,   name, line, n) {
    name = path
    sub(/^\.\//, "", name)    # as_path put it there
    while ((getline line < path) > 0) {
        if (++n == 1) sub(/^\357\273\277/, "", line)    # the mark that some editors put before UTF-8
        sub(/\r$/, "", line)
        sub(/^[ \t]+/, "", line)
        if (line == "" || line ~ /^#/) continue
        if (ARGC > 2 && is_finish(line)) hold_back(line, shown(name) ":" n, feed)
        else hand_over(line, shown(name) ":" n)
    }
    if (path != "/dev/stdin") close(path)    # closing that ends some awks
}

# A finish, or a ready line that is one.
function is_finish(line) {
    return line ~ /^finish([ \t#"()]|$)/ || line ~ /^line[ \t]+02/
}

function hand_over(line, where) {
    said[++statements] = line
    place[statements] = where
}

function hold_back(line, where, feed) {
    late_said[++late] = line
    late_place[late] = where
    late_feed[late] = feed
}
