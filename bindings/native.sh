# Rattle code for the processor at hand. Sourced by bash with -euo pipefail in force, with `root` set to the repository.
# `rt` compiles for x86-64. On another machine the module that it hands to its compiler is kept, by a kit that is the installed one but for a wrapper round
# that compiler, and the same compiler makes the machine's own object of it, with the same flags.

native=$root/target/native

# Whether a file is there and no source is newer.
is_built() { [ -e "$1" ] && [ -z "$(find "$root/crates" -name '*.rt' -newer "$1" -print -quit)" ]; }

# The installed kit, but for its compiler, which keeps the module that it is handed.
kit_that_keeps() {
    local kit machine=on/$(uname -m) part
    kit=$(rt doc)
    kit=${kit%/docs/*}
    clang=$kit/$machine/toolchain/bin/clang
    mkdir -p "$native/kit/$machine/toolchain/bin"
    for part in "$kit"/* "$kit/$machine"/* "$kit/$machine"/toolchain/* "$kit/$machine"/toolchain/bin/*; do
        part=${part#"$kit/"}
        case $part in on | "$machine/toolchain" | "$machine/toolchain/bin" | "$machine/toolchain/bin/clang") continue ;; esac
        ln -sfn "$kit/$part" "$native/kit/$part"
    done
    printf '#!/bin/sh\n[ ! -f module.bc ] || cp module.bc "%s"\nexec "%s" "$@"\n' "$native/module.bc" "$clang" >"$native/kit/$machine/toolchain/bin/clang"
    chmod +x "$native/kit/$machine/toolchain/bin/clang"
}

# object CRATE VERB: $native/CRATE.o, from the module that `rt VERB CRATE` compiles.
object() {
    local crate=$1 clang
    kit_that_keeps
    rm -f "$native/module.bc"
    (cd "$root" && RATTLE_HOME=$native/kit rt "$2" "$crate") &&
        "$clang" --target=x86_64-unknown-linux-gnu -S -emit-llvm -Xclang -disable-llvm-passes -x ir "$native/module.bc" -o "$native/$crate.ll" &&
        sed -i -e '/^target /d' -e 's/ "target-cpu"="[^"]*"//; s/ "target-features"="[^"]*"//' "$native/$crate.ll" &&
        "$clang" -c -x ir "$native/$crate.ll" -o "$native/$crate.o" -fPIC -O3 -ffunction-sections -fdata-sections -mllvm -trap-unreachable -mllvm -no-trap-after-noreturn
}

# archive CRATE: the folder that has libCRATE.a for this processor, built where it is missing or older than a source. Its calls are exported by crate CRATE_c.
archive() {
    local folder=$native built=$root/crates/$1_c/out/lib$1_c.a
    if [ "$(uname -m)" = x86_64 ]; then
        folder=$root/target/staticlib
        is_built "$built" || (cd "$root/crates/$1_c" && rt lib) >&2 || return 1
        mkdir -p "$folder"
        cp "$built" "$folder/lib$1.a"
    else
        is_built "$folder/lib$1.a" || { object "$1_c" lib && rm -f "$folder/lib$1.a" && ar rcs "$folder/lib$1.a" "$folder/$1_c.o"; } >&2 || return 1
    fi
    printf '%s\n' "$folder"
}

# program CRATE: a program for this processor, likewise.
program() {
    local file=$native/$1
    if [ "$(uname -m)" = x86_64 ]; then
        file=$root/crates/$1/out/$1
        is_built "$file" || (cd "$root/crates/$1" && rt run -- --help) >&2 </dev/null || return 1
    else
        is_built "$file" || { rm -f "$root/target/stamp/$1" && object "$1" check && cc -o "$file" "$file.o" "$root/bindings/native_os.c"; } >&2 || return 1
    fi
    printf '%s\n' "$file"
}
