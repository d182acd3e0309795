# What the scripts of this folder share. Each reads it with its folder in $here.

# shown [NAME]: a name, or else each line of standard input, as it may stand on a terminal.
shown() {
    LC_ALL=C awk -f "$here/bytes.awk" -f "$here/shown.awk" -- "$@"
}

# refuse WHY: ends with status 2. By printf, since some shells' echo makes bytes of what stands behind a backslash.
refuse() {
    printf '%s\n' "site/${0##*/}: $1" >&2
    exit 2
}

# need_readable NAME ..
need_readable() {
    for name; do
        [ -r "$name" ] && [ ! -d "$name" ] || refuse "$(shown "$name") is no file that can be read"
    done
}

# need_file NAME ..: files that can be read more than once
need_file() {
    for name; do
        [ -f "$name" ] || refuse "$(shown "$name") is no file"
    done
    need_readable "$@"
}

# as_path NAME: in $path the name as no command takes it for an option, nor awk for an assignment
as_path() {
    case $1 in
        /*) path=$1 ;;
        *) path=./$1 ;;
    esac
}

# over_texts PROGRAM TEXT ..: runs an awk program over the statements of texts
over_texts() {
    program=$1
    shift
    for text; do
        as_path "$text"
        set -- "$@" "$path"
        shift
    done
    LC_ALL=C awk -f "$here/bytes.awk" -f "$here/texts.awk" -f "$here/$program" -- "$@"
}
