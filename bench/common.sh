# What the measuring scripts share: the measuring program, built. Sourced by bash with -euo pipefail in force, after tools/usage.sh and with `root` set to
# the repository.
. "$root/oracle/common.sh"
. "$root/bindings/native.sh"

# is_count WORD: a number of rounds or lines, from 1 on.
is_count() { is_number "$1" && [ "$1" -gt 0 ]; }

# Finds what is measured: the crate, the room and the published lines.
settle_bench() {
    settle
    room=$room/bench
    sample=${SAMPLE-$root/../shared/vectors/sample.aivdm}
    [ -f "$sample" ] || { say "no file of published lines at '$sample': SAMPLE has to name one"; exit 2; }
}

# Builds the measuring program for release, over the crate and the library for this processor.
build_bench() {
    packages
    link_crate
    ln -sfn "$root/bench/Cargo.toml" "$room/Cargo.toml"
    ln -sfn "$root/bench" "$room/bench"
    ln -sfn "$root/bindings/rust" "$room/sumturnip"
    mkdir -p "$room/.cargo"
    printf '[source.crates-io]\nreplace-with = "debian"\n[source.debian]\ndirectory = "%s"\n' "$registry" >"$room/.cargo/config.toml"
    local library
    library=$(archive sumturnip)
    (cd "$room" && SUMTURNIP_LIB=$library cargo build --release --offline --quiet)
}

bench() { "$room/target/release/bench" "$sample" "$@"; }

# The machine, the day and the tools, for whoever keeps the figures.
heading() {
    printf 'machine: %s, %s\n' "$(lscpu | sed -n 's/^Model name: *//p' | head -n 1)" "$(uname -m)"
    printf 'date: %s\n' "$(date -u +%F)"
    printf 'rustc: %s; rattle: %s\n\n' "$(rustc --version)" "$(rt version | cut -d ' ' -f 1-3)"
}
