# Sourced by the scripts of this folder, which take no argument and read no input: the repository's
# root, the archive, the folder to build in, and how a script ends with status 1 or 2.
exec </dev/null

script=tests/${0##*/}
root=$(unset CDPATH && cd -- "$(dirname -- "${BASH_SOURCE[0]}")/.." && pwd)
archive=$root/target/staticlib/libnimovalsa.a
built=$root/target/tests

# Wrong use, or something is missing.
stop() {
    printf '%s: %s\n' "$script" "$1" >&2
    exit 2
}

# A test does not pass.
fail() {
    printf '%s: %s\n' "$script" "$1" >&2
    exit 1
}

need_archive() {
    [ -f "$archive" ] ||
        stop "target/staticlib/libnimovalsa.a is missing, make it with: make archive"
}

need() {
    local tool
    for tool; do
        command -v "$tool" >/dev/null || stop "$tool is missing"
    done
}

[ $# -eq 0 ] || stop "takes no argument, got $1"
mkdir -p "$built"
