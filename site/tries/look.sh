# Tries of site/try on showing a module: to wabt, for which scripts stand in, and to Node, if it is there.

# looked STATUS: has site/show look at the module of standard input, whose name begins with -
looked() {
    cat >"$text"
    site/build "$text" "$room/-module" >"$room/out"
    (cd "$room" && ends "$1" "showing the module of $(head -n 1 "$text")" env PATH="$room/bin:$PATH" "$root/site/show" -module)
}

# once WHAT: Node says one thing of instantiating, and then of the data, but for the words of its own messages
once() {
    same "what Node says of $1" "$(grep -e instantiat -e 'data [0n]' "$room/out" | sed 's/: WebAssembly.*//')" "$(cat)"
}

for name in wasm-validate wasm-objdump; do
    printf '#!/bin/sh\nprintf "%s: \\033 %%s\\n" "$2"\n' "$name" >"$room/bin/$name"
    chmod +x "$room/bin/$name"
done
printf 'import "s" "m\\1B\\0A" memory 1\nfinish imports\n' | looked 0
plain
same "what wabt says" "$(grep wasm- "$room/out")" 'wasm-validate: \1B ./-module
wasm-validate: valid
wasm-objdump: \1B ./-module'

if command -v node >/dev/null; then
    same "an import's name" "$(grep "^  imports" "$room/out")" '  imports "s" "m\1B\0A" memory'
    printf 'import "s" "m" memory 1\nimport "s" "g" global i32\ndata at global 0 u8 1\nfinish imports count data\n' | looked 0
    once "data placed by a global" <<'END'
  instantiated with its imports
  data not shown: data placed by another expression than a number is not read here
END
    printf 'import "s" "m" memory 1\nimport "s" "m" global i32\ndata at 8 u8 1\nfinish imports count data\n' | looked 0
    once "imports of one name" <<'END'
  instantiated with its imports
  data 0, in memory at 8: 01 "."
END
    printf 'import "s" "v" global v128\nfinish imports\n' | looked 0
    once "an import that it cannot make" <<'END'
  instantiating not tried
END
    printf 'import "s" "m" memory 1\ndata at -6385 u8 1\nfinish imports count data\n' | looked 1
    once "data outside memory" <<'END'
  not instantiated
END
else
    echo "node: not installed, its tries are passed over"
fi
rm "$room/bin/wasm-validate" "$room/bin/wasm-objdump"
