# For scripts, sourced with `root`, the repository's folder, set: builds what is missing or older than its sources, and says plainly what a machine lacks.

# `lacks COMMAND`: whether the command is missing.
lacks() {
    ! command -v "$1" >/dev/null
}

# `says WORDS..`: to standard error, and no answer.
says() {
    echo "$(basename "$0"): $*" >&2
    exit 2
}

# `older FILE SOURCE..`: whether the file is missing or a source is newer.
older() {
    [ ! -e "$1" ] || [ -n "$(find "${@:2}" -newer "$1" -print -quit)" ]
}

# `quietly WORDS COMMAND..`: says what is done, runs the command, and shows what it printed only where it fails.
quietly() {
    echo "$(basename "$0"): $1" >&2
    local log
    log=$(mktemp)
    if ! (cd "$root" && "${@:2}") >"$log" 2>&1; then
        cat "$log" >&2
        rm -f "$log"
        says "the build failed"
    fi
    rm -f "$log"
}

# `stale FILE`: whether what is built of the crates is missing or one of their files is newer. What rt keeps in a crate's out/ counts for nothing.
stale() {
    [ ! -e "$1" ] || [ "$root/crates.txt" -nt "$1" ] || [ -n "$(find "$root/crates" -mindepth 2 -name out -prune -o -newer "$1" -print -quit)" ]
}

# `needs_rt WORDS..`: says that what the words name takes the toolchain once, where there is none.
needs_rt() {
    if lacks rt; then
        says "needs the Rattle toolchain (rt) $*"
    fi
}

# `find_program NAME`: sets `program` to the proved program of the crate, which `rt ci` leaves built. Where that is stale, `rt run` proves and builds it, over what
# checks here kept.
find_program() {
    program=$root/crates/$1/out/$1
    if stale "$program"; then
        needs_rt "to build the program once"
        quietly "proving and building $1; this takes some minutes" bash -c 'cd "crates/$1" && rt run <stdin >/dev/null' bash "$1"
        touch "$program"
    fi
}

# `left_by_ci NAME..`: whether `rt ci` was the last to prove here, and left these libraries as the crates now stand. It gives its libraries no stamp, as
# `rt check` and `rt lib` do.
left_by_ci() {
    local crate library
    for library in "$@"; do
        [ -e "$root/crates/$library/out/rlib/$library.rlib/format" ] || return 1
    done
    for crate in "$root"/crates/*/; do
        crate=${crate%/}
        library=$crate/out/rlib/${crate##*/}.rlib
        [ ! -e "$crate/out/rlib/stamp" ] || return 1
        [ ! -e "$library" ] || [ -z "$(find "$crate" -mindepth 1 -name out -prune -o -newer "$library" -print -quit)" ] || return 1
    done
}

# Proves and builds crates/rights_c/out/librights_c.a. `rt ci` only proves a static library, and `rt lib` proves the crates below it once more, one after
# another, unless `rt check` kept them; so where `rt ci` was the last, rattle proves the library alone, over the libraries that it left.
build_library() {
    local below kit crate words=()
    below=$(sed -n 's/^rights_c staticlib: *//p' crates.txt)
    if left_by_ci $below; then
        kit=$(dirname "$(rt doc)")
        for crate in $below; do
            words+=(--extern "$crate=../$crate/out/rlib/$crate.rlib")
        done
        for crate in crates/*/out/rlib; do
            words+=(-L "dependency=../../$crate")
        done
        cd crates/rights_c
        mkdir -p out
        "$kit/bin/rattle" build --crate-name rights_c src/lib.rt --crate-type staticlib --extern "std=$kit/rlibs/std.rlib" -L "dependency=$kit/rlibs" "${words[@]}" \
            --links rights_c= --antt-project "$kit/rattle/logic/antt-project.json" --logic-built "$kit/logic_built" --jobs 2 --toolchain "$kit/toolchain" --backend llvm \
            -o out/librights_c.a
    else
        cd crates/rights_c
        rt lib
    fi
}

# Sets `archive`: the library of RIGHTS_LIB, or this repository's own.
find_library() {
    if [ -n "${RIGHTS_LIB:-}" ]; then
        archive=$RIGHTS_LIB/librights_c.a
        [ -f "$archive" ] || says "there is no librights_c.a in $RIGHTS_LIB"
        return
    fi
    archive=$root/crates/rights_c/out/librights_c.a
    if stale "$archive"; then
        needs_rt "once, or RIGHTS_LIB=DIR with librights_c.a"
        quietly "proving and building the library; this takes some minutes" build_library
        touch "$archive"
    fi
}
