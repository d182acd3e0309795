# Tries of site/try on several texts: as the three lines of a back office bring them, interleaved anyhow, they give one module.

feeds=$room/feeds
mkdir "$feeds"
cat >"$feeds/types" <<'END'
type (i32) -> (i32)
type (i32 i64) -> ()
END
cat >"$feeds/brought" <<'END'
import "site" "memory" memory 1 2
table funcref 3 3
END
cat >"$feeds/rules" <<'END'
elements at 0 functions
data at 1024 u8 1 3 u16 5 10 7
data at 9999 u8 1
END
echo "finish types imports tables elements count data" >"$feeds/finish"
cat "$feeds/rules" "$feeds/finish" >"$feeds/finishing"
cat "$feeds/types" "$feeds/brought" "$feeds/finishing" >"$feeds/all"

# interleaved ORDERS MODULES FEED ..: the feeds have that many interleavings, which give that many modules; these are in the file modules
interleaved() {
    orders=$1 modules=$2
    shift 2
    rm -rf "$room/frames" "$room/into"
    mkdir "$room/frames" "$room/into"
    for feed; do
        site/frames "$feeds/$feed" >"$room/frames/$feed"
        set -- "$@" "$room/frames/$feed"
        shift
    done
    awk -v into="$room/into" -v last="$(site/frames "$feeds/all" | tail -n 1)" -f site/tries/interleave.awk "$@"
    for order in "$room"/into/*; do tr '\n' ' ' <"$order"; echo; done | sort -u >"$room/orders"
    same "interleavings" "$(($(wc -l <"$room/orders")))" "$orders"
    ./run hexlines "$room"/into/* | sed -n 's/^00\(.\)/\1/p' >"$room/all"
    same "modules of interleavings" "$(($(wc -l <"$room/all")))" "$orders"
    sort -u "$room/all" | tr 'A-F' 'a-f' >"$room/modules"
    same "different modules of interleavings" "$(($(wc -l <"$room/modules")))" "$modules"
}

# together TEXT ..: the module that they give
together() {
    for feed; do
        set -- "$@" "$feeds/$feed"
        shift
    done
    ends 0 "several texts" site/build "$@" "$room/module"
    digits "$room/module"
}

# A feed that has a section to itself: every interleaving, every order of the texts, and one text of all of it.
interleaved 210 1 types brought rules
whole=$(together all)
same "the module of interleavings" "$(cat "$room/modules")" "$whole"
for order in "types brought finishing" "types finishing brought" "brought types finishing" "brought finishing types" "finishing types brought" "finishing brought types"; do
    same "the module of $order" "$(together $order)" "$whole"
done
same "the module of four texts" "$(together types finish rules brought)" "$whole"

# Two feeds that share a section: the order in which their adds come tells the modules apart, and of texts the order of the arguments.
head -n 1 "$feeds/types" >"$feeds/next"
tail -n 1 "$feeds/types" >"$feeds/book"
interleaved 12 2 next book brought
same "the texts' order" "$(together next book brought finishing)" "$whole"
same "another order of the texts" "$([ "$(together book next brought finishing)" = "$whole" ] || echo another)" another

# A finish is of all texts, also as a ready line, and one text alone has it.
site/frames "$feeds/all" | sed -n '$s/^/line /p' >"$feeds/ready"
same "the module of a ready finish" "$(together ready types brought rules)" "$whole"
ends 2 "two finishes" site/build "$feeds/finishing" "$feeds/types" "$feeds/finish" "$room/module"
same "where they are" "$(head -n 1 "$room/out")" "$feeds/finish:1: the finish of all texts stands in $feeds/finishing:4"
printf '\n\ntyp\n' >"$feeds/typo"
ends 2 "a mistake in the second text" site/frames "$feeds/all" "$feeds/typo"
same "its place" "$(cut -d : -f 1,2 "$room/out")" "$feeds/typo:3"
ends 0 "answers to several texts" site/build "$feeds/finishing" "$feeds/types" "$room/module"
same "their places" "$(sed -n "s|^$feeds/\([a-z]*:[0-9]*\): 0 .*|\1|p" "$room/out" | tr '\n' ' ')" "finishing:1 finishing:2 finishing:3 types:1 types:2 finishing:4 "
