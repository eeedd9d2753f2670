# The benchmark where the archives do not link, on Arm: LLVM bitcode recompiled for the machine, to be timed, and the
# x86-64 code's instructions counted by an emulator. Sourced by bench/run, which has out, clang, tools and launcher.

# A folder that stands for the kit: all links, but its clang keeps the bitcode that it is given, then does as told.
stand_in_kit() {
    local stand=$PWD/$out/kit entry
    rm -rf "$stand"
    mkdir -p "$stand/toolchain/bin"
    for entry in "$kit"/*; do [ "${entry##*/}" = toolchain ] || ln -s "$entry" "$stand/"; done
    for entry in "$tools"/*; do [ "${entry##*/}" = bin ] || ln -s "$entry" "$stand/toolchain/"; done
    for entry in "$tools/bin"/*; do [ "${entry##*/}" = clang ] || ln -s "$entry" "$stand/toolchain/bin/"; done
    {
        echo '#!/bin/sh'
        echo "for word; do case \$word in *.bc) cp \"\$word\" '$PWD/$out/module.bc' ;; esac; done"
        echo "exec '$clang' \"\$@\""
    } >"$stand/toolchain/bin/clang"
    chmod +x "$stand/toolchain/bin/clang"
}

# Proves and builds an archive as rt does, and compiles its bitcode once more, for this machine, at the same level.
recompile() { # NAME
    rm -f "$out/module.bc"
    local stand=$PWD/$out/kit
    (cd "crates/$1" && "$stand/bin/rt" lib) >"$out/$1.log" 2>&1 || { cat "$out/$1.log"; return 1; }
    [ -f "$out/module.bc" ] || { echo "bench/run: no bitcode of $1 was seen"; return 1; }
    mv "$out/module.bc" "$out/$1.bc"
    "$clang" "--target=$(uname -m)-linux-gnu" -O3 -fPIC -mllvm -trap-unreachable -mllvm -no-trap-after-noreturn \
        -c -x ir "$out/$1.bc" -o "$out/$1.o" 2>>"$out/$1.log" || { tail "$out/$1.log"; return 1; }
}

# The x86-64 program whose instructions are counted: the archives themselves, and the twin for x86-64.
compile_count() {
    "$clang" --target=x86_64-unknown-linux-gnu -O3 -fPIC -nostdinc -Wall -Wextra -Werror -c bench/twin.c \
        -o "$out/twin-x86-64.o"
    compile bench/count.c "$out/count.o"
    link "$out/count" "$out/count.o" "$out/twin-x86-64.o" \
        crates/firmware/out/libfirmware.a crates/hostcalls/out/libhostcalls.a
}

# Whether these words count; counter is then the whole of what runs the count program. The plainest processor, since a
# richer one has instructions that repeat themselves, which are counted each time.
counts() { # EMULATOR WORDS...
    counter=("$1" -cpu qemu64 "${@:2}" "${launcher[@]: -3}" "$out/count")
    [ "$(instructions none 2>/dev/null)" -gt 0 ]
}

# An emulator that takes plugins, as Debian's does, or else one that writes a line for each instruction, as the kit's
# can: that is slow, so only the smaller shape is counted by it.
find_counter() {
    local version emulator one
    "$out/bench" keys 10 12 0.5 list >"$out/keys"
    for version in 1 2 3 4 5 6; do
        "${CC:-cc}" -O2 -shared -fPIC -Wall -Wextra "-DPLUGIN_VERSION=$version" -o "$out/insns.so" bench/insns.c ||
            break
        counts qemu-x86_64 -plugin "$out/insns.so" && return 0
    done
    shapes=("10 12")
    for emulator in "$tools/bin/qemu-x86_64" qemu-x86_64; do
        for one in -one-insn-per-tb -singlestep; do
            counts "$emulator" "$one" -d exec,nochain && return 0
        done
    done
    return 1
}

# All that the program runs, its own loader among it: what the plugin says at the end, or the number of lines.
instructions() { # SET
    "${counter[@]}" "$1" <"$out/keys" 2>&1 >"$out/calls" |
        awk '/^instructions: / { n = $2 } /^Trace / { n++ } END { printf "%.0f\n", n }' ||
        { echo "bench/run: the count program failed on $1" >&2; return 1; }
}

# As count_by_callgrind. What the program itself takes is what it takes with calls that do nothing, less their two
# instructions.
count_by_emulator() { # M R LOAD OPERATION CALL
    local calls keys ours twin none
    "$out/bench" keys "$1" "$2" "$3" "$4" >"$out/keys"
    none=$(instructions none)
    ours=$(instructions ours)
    twin=$(instructions twin)
    read -r calls keys <"$out/calls"
    awk -v ours="$ours" -v twin="$twin" -v own="$((none - 2 * calls))" -v keys="$keys" 'BEGIN {
        printf " %.1f / %.1f = %.2f |", (ours - own) / keys, (twin - own) / keys, (ours - own) / (twin - own) }'
}
