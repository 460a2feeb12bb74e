# What the scripts here and those of bench/ share: building the oracle's programs and running ours. Sourced by bash with -euo pipefail in force, after
# tools/usage.sh and with `root` set to the repository.

registry=/usr/share/cargo/registry # where Debian's packages put the source of crates

# known_sets WORD..: each has to name a set of commands.
known_sets() {
    local set
    for set in "$@"; do
        case $set in unarmor | decode | read) ;; *) wrong "no such set: $set" ;; esac
    done
}

# Finds the crate's source, and the room in which all is built: a folder for each checkout and each source, because cargo tells a change by the times of
# files alone.
settle() {
    needs rt
    ais=${AIS_SOURCE:-$root/../shared/docs/src}
    [ -f "$ais/src/messages/mod.rs" ] || { say "the crate's src/ is not in $ais: AIS_SOURCE has to name the folder that has it"; exit 2; }
    ais=$(realpath -e "$ais")
    room=${XDG_CACHE_HOME:-$HOME/.cache}/sumturnip-oracle/$(printf '%s\n' "$root" "$ais" | cksum | cut -d ' ' -f 1)
}

# Installs the Debian packages that building the driver needs and the machine has not.
packages() {
    local missing=()
    command -v cargo >/dev/null || missing+=(cargo)
    compgen -G "$registry/nom-7*" >/dev/null || missing+=(librust-nom-dev)
    [ ${#missing[@]} -eq 0 ] || install "${missing[@]}"
}

# Puts the crate together in the room: links to its own files, and a stand-in for each module that it names and has not.
link_crate() {
    rm -rf "$room/ais"
    mkdir -p "$room/ais"
    cp -rs --no-preserve=mode "$ais/src" "$room/ais/src"
    ln -s "$root/oracle/ais.toml" "$room/ais/Cargo.toml"
    local module
    for module in $(sed -n 's/^pub mod \([a-z_]*\);$/\1/p' "$ais/src/messages/mod.rs"); do
        [ -e "$room/ais/src/messages/$module.rs" ] || ln -s "$root/oracle/stand_in.rs" "$room/ais/src/messages/$module.rs"
    done
}

# Builds `driver` and `generate`, in release mode and with the crate's standard library, as document 01 has it.
build() {
    packages
    link_crate
    ln -sfn "$root/oracle/Cargo.toml" "$room/Cargo.toml"
    ln -sfn "$root/oracle/driver" "$room/driver"
    ln -sfn "$root/oracle/generate" "$room/generate"
    mkdir -p "$room/.cargo"
    printf '[source.crates-io]\nreplace-with = "debian"\n[source.debian]\ndirectory = "%s"\n' "$registry" >"$room/.cargo/config.toml"
    (cd "$room" && cargo build --release --offline --quiet)
}

driver() { "$room/target/release/driver"; }

# The generator; the published lines are damaged too where they are at hand.
generate() { SAMPLE=${SAMPLE-$root/../shared/vectors/sample.aivdm} "$room/target/release/generate" "$@"; }

# Builds our program where it is missing or older than a source.
build_trace() {
    trace_is_built || (cd "$root/crates/trace" && rt run -- --help) >&2 </dev/null || trace_is_built || { say "trace is not built"; exit 2; }
}

trace_is_built() {
    local program=$root/crates/trace/out/trace
    [ -e "$program" ] && [ -z "$(find "$root/crates" -name '*.rt' -newer "$program" -print -quit)" ]
}

# Our program.
trace() { "$root/crates/trace/out/trace"; }
