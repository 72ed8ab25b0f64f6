# What ./test, ./bench and harness/listing.sh share. The library is for x86-64, as the kit is: gcc compiles what is
# linked with it.

say() { printf '%s\n' "$*"; }
die() { printf '%s\n' "$*" >&2; exit 1; }

wanted() { command -v "$1" >/dev/null 2>&1 || die "missing: $1${2:+ ($2)}"; }

find_tools() {
    [ "$(uname -m)" = x86_64 ] || die "the library is for x86-64, and this is $(uname -m)"
    wanted rt 'the kit; its bin/ belongs into PATH'
    wanted gcc
    wanted cargo
}

# The static library, proved, in build/.
build_library() {
    mkdir -p build
    (cd crates/roadquill && rt lib) >build/library.log 2>&1 || {
        cat build/library.log
        die 'the library was not built'
    }
    cp crates/roadquill/out/libroadquill.a build/
}
