# The Rattle kit's tools for the host tests: how x86-64 programs are compiled, linked and run.
# To be sourced by a run script whose working folder is the root of the repository.

command -v rt >/dev/null || { echo "the host tests need rt, the Rattle kit's command, on the PATH"; exit 2; }
kit=$(dirname "$(rt doc)")
tools=$kit/toolchain
[ -x "$tools/bin/clang" ] || { echo "the kit has no compiler for $(uname -m)"; exit 2; }

# The words before an x86-64 program's name that run it: an emulator where the kit has one, then the kit's loader.
launcher=("$tools/lib/ld-linux-x86-64.so.2" --library-path "$tools/lib")
[ -x "$tools/bin/qemu-x86_64" ] && launcher=("$tools/bin/qemu-x86_64" "${launcher[@]}")

# The kit's compiler has no headers at all: tests/headers has what include/woollydusk.h needs.
compile() { # SOURCE OBJECT
    "$tools/bin/clang" --target=x86_64-unknown-linux-gnu -std=c99 -Wall -Wextra -pedantic -Werror \
        -O2 -fPIC -nostdinc -isystem tests/headers -Iinclude -c "$1" -o "$2"
}

link() { # PROGRAM FILE...
    local program=$1
    shift
    "$kit/bin/rattle-link" --target x86_64-unknown-linux-gnu --toolchain "$tools" -o "$program" "$@" \
        2>"$program.say" || { cat "$program.say"; return 1; }
}

# A program as rt ci or rt run left it.
program() { # NAME
    echo "crates/$1/out/$1"
}

# Makes crates/NAME/out/libNAME.a, unless it is there and no source is newer.
archive() { # NAME
    local made=crates/$1/out/lib$1.a
    if [ -f "$made" ] && [ -z "$(find crates/*/src crates/*/specs crates.txt -newer "$made" -print -quit)" ]; then
        return 0
    fi
    mkdir -p target
    (cd "crates/$1" && rt lib) >"target/archive-$1.say" 2>&1 || { tail -n 20 "target/archive-$1.say"; return 1; }
}
