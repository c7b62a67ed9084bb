# For scripts that link the library: sourced at the repository's root. Proves and builds it where that was not done since the last change, and sets
# `work`, a folder that goes at the end, `archive`, and `compile SOURCE OUT`, for C. Installs gcc and rustc where they are missing (Debian).
root=$PWD
. tests/tools.bash
. bin/build.bash
need gcc gcc libc6-dev
need rustc rustc
work=$(mktemp -d)
trap 'rm -rf "$work"' EXIT
find_library
compile() {
    gcc -std=c99 -O2 -Wall -Wextra -Werror -Iinclude "$1" "$archive" -o "$2"
}
