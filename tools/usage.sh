# What the scripts say of their use. Sourced by bash with -euo pipefail in force; the script has set `name`, and `usage`, whose first line is its form and
# whose others say what it does.

say() { printf '%s: %s\n' "$name" "$*" >&2; }

# helped WORD..: where help is asked for, all of `usage`, and the end.
helped() {
    local word
    for word in "$@"; do
        case $word in -h | --help) printf 'usage: %s\n' "$usage" && exit 0 ;; esac
    done
}

# wrong WORDS: one line that says what is wrong and what the form is; status 2.
wrong() {
    say "$*; usage: ${usage%%$'\n'*} (--help says more)"
    exit 2
}

# needs TOOL..: each has to be on the path.
needs() {
    local tool
    for tool in "$@"; do
        command -v "$tool" >/dev/null || { say "$tool is not on the path"; exit 2; }
    done
}

# is_number WORD: a decimal of at most nine digits, with no zero before it.
is_number() { [[ $1 =~ ^(0|[1-9][0-9]{0,8})$ ]]; }

# install PACKAGE..: from the system's packages; which, is said before it is done.
install() {
    command -v apt-get >/dev/null || { say "these packages are missing, and there is no apt-get to install them: $*"; exit 2; }
    local become=()
    [ "$(id -u)" = 0 ] || become=(sudo)
    say "installing from the system's packages: $*"
    "${become[@]}" apt-get update -qq >&2 && "${become[@]}" apt-get install -qq -y --no-install-recommends "$@" >&2 || { say "could not install: $*"; exit 2; }
}
