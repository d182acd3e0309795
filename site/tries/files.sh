# Tries of site/try on files: which may be a module, how it gets to its place, any name, and that no raw byte is shown.

mkdir "$room/files" "$room/files/put" "$room/bin"
cd "$room/files"
printf 'data passive "A"\nfinish count data\n' >text
printf 'data passive "B"\n' >more
printf 'record 3\nfinish\n' >refused
"$root/run" hexlines "$root/docs/first.hex" >answers

# What may be a module.
mkdir folder
ln -s /dev/null device
ends 2 "a directory as the module" "$root/site/build" text folder
same "why not" "$(cat "$room/out")" "site/build: folder is a directory, and the module a file"
same "what is in the directory" "$(ls -A folder)" ""
ends 2 "a device as the module" "$root/site/build" text device
same "the device is one" "$([ -c device ] && echo yes)" yes
ends 2 "a module in a directory that is not there" "$root/site/build" text nowhere/module
ends 2 "a text that is not there" "$root/site/build" nothing module

# A text and the module are one file, or two that are equal.
ln text hard
ln -s text soft
for name in ./text hard soft; do
    ends 2 "the text as the module, by $name" "$root/site/build" more text "$name"
    same "why not $name" "$(cat "$room/out")" "site/build: the module would take the place of text"
done
cp text equal
ends 0 "a module that was equal to the text" "$root/site/build" text equal
same "the module in its place" "$(digits equal)" "$first_module"

# MODULE is whole or as it was, and nothing is left beside it. What moves it there is broken off, by failing and by a signal.
printf 'old' >put/module
chmod 640 put/module
ends 1 "a refused line" "$root/site/build" refused put/module
printf '#!/bin/sh\nexit 1\n' >"$room/bin/mv"
chmod +x "$room/bin/mv"
ends 2 "moving that fails" env PATH="$room/bin:$PATH" "$root/site/build" text put/module
printf '#!/bin/sh\nkill -TERM $PPID\nexit 1\n' >"$room/bin/mv"
ends 143 "a signal while moving" env PATH="$room/bin:$PATH" "$root/site/build" text put/module
rm "$room/bin/mv"
same "the old module" "$(cat put/module)" old
same "what is beside it" "$(ls -A put)" module
ends 0 "a module in the old one's place" "$root/site/build" text put/module
same "the new module" "$(digits put/module)" "$first_module"
same "its rights" "$(ls -l put/module | cut -c 1-10)" -rw-r-----
(umask 037 && "$root/site/build" text put/first >"$room/out")
same "a first module's rights" "$(ls -l put/first | cut -c 1-10)" -rw-r-----
same "what is beside both" "$(ls -A put | tr '\n' ' ')" "first module "
ln -s text led
ln -s led put/link
ends 0 "a module in a link's place" "$root/site/build" text put/link
same "the module in its place" "$([ -L put/link ] || digits put/link)" "$first_module"

# Names that a command could take for an option, for standard input or for an assignment.
for name in -t - a=b; do
    cp text "./$name"
    ends 0 "the text $name" "$root/site/build" "$name" -m
    same "the module of $name" "$(digits -m)" "$first_module"
    same "the frames of $name" "$("$root/site/frames" "$name")" "$(cat "$root/docs/first.hex")"
    ends 0 "the answers to $name" "$root/site/answers" "$name" <answers
    same "their places" "$(cut -d : -f 1,2 "$room/out" | tr '\n' ' ')" "$name:1 $name:2 "
done
same "the frames of standard input" "$(cat text | "$root/site/frames" /dev/stdin)" "$(cat "$root/docs/first.hex")"

# plain: what was said last has no raw byte, and has ESC in another form
plain() {
    same "raw bytes" "$(LC_ALL=C tr -d '\n -~' <"$room/out" | od -An -tx1)" ""
    same "ESC is shown" "$(grep -q '\\1B' "$room/out" && echo yes)" yes
}

# A file's name, a word, a string and an answer with raw bytes.
raw=$(printf 'raw\n\033[31m\233')
ends 2 "no such file" "$root/site/show" "$raw"
plain
printf '%s\n' "$raw" >"$raw"
ends 2 "a raw word" "$root/site/build" "$raw" "$raw.module"
plain
printf 'import "%s" "\200" func 0\nfinish\n' "$(printf '\t\033\302\233')" >"$raw"
ends 1 "a raw name" "$root/site/build" "$raw" "$raw.module"
plain
printf '%s\n' "$raw" >said
ends 2 "a raw answer" "$root/site/answers" <said
plain
ends 2 "a name that echo would make raw" "$root/site/frames" '\033[31m'
same "as it is" "$(cat "$room/out")" 'site/frames: \033[31m is no file that can be read'
cd "$root"
