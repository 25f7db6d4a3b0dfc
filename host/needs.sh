# Sourced by the scripts of this folder: their usage, and what the machine must have, said before any work is begun.

help_or_nothing() { # USAGE ARGUMENT ..: for a script without arguments
    case "$#:${2:-}" in
    1:*) ;;
    2:-h | 2:--help) echo "$1"; exit 0 ;;
    *) echo "$1" >&2; exit 2 ;;
    esac
}

need() { # PROGRAM WHAT_FOR
    command -v "$1" >/dev/null || { echo "$0: $1 is missing: $2" >&2; exit 2; }
}

need_rt() {
    need rt "the Rattle toolchain proves and builds the library"
}

need_gcc() {
    need gcc "it links the library and compiles the programs in C"
}

need_python() {
    need python3 "the reference needs Python 3.11 or later"
    python3 -c 'import sys; sys.exit(sys.version_info < (3, 11))' ||
        { echo "$0: the reference needs Python 3.11 or later, not $(python3 --version 2>&1)" >&2; exit 2; }
}
