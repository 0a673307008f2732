# Starts a proved program of this project. It starts what is built; where the program is missing, or with --build, it is proved and built first.
# For ./session and ./desk: they set `here`, the project's folder, and `name`, the program's, and have a function `help`.
program="$here/target/bin/$name"

# Notes a crate, and all that it needs, in `needed`. The kit's own have no line in crates.txt, and are not proved.
declare -A needed=()
need() {
    local line crate
    line="$(grep "^$1:" "$here/crates.txt")" || return 0
    needed[$1]=yes
    for crate in ${line#*:}; do
        [ -n "${needed[$crate]-}" ] || need "$crate"
    done
}

# Passes its input on, and shows on standard error when a crate is proved, and how many are needed ($1). A crate that is known to be proved
# is not named.
show_crates() {
    local line crate= count=0
    while IFS= read -r line; do
        case $line in
        'crate '*:*)
            crate="${line#crate }"
            crate="${crate%%:*}"
            ;;
        logic=proved*)
            if [ -n "$crate" ]; then
                count=$((count + 1))
                printf '%s: %d of %d proved: %s\n' "$name" "$count" "$1" "$crate" >&2
                crate=
            fi
            ;;
        esac
        printf '%s\n' "$line"
    done
}

# `rt run` proves what is not known to be proved, builds the program and runs it, here on an empty input, to which it answers nothing.
build() {
    local report
    echo "$name: proving and building the program; this takes some minutes the first time" >&2
    need "$name"
    if ! report="$(cd "$here/crates/$name" && rt run </dev/null 2>&1 | show_crates "${#needed[@]}")"; then
        printf '%s\n' "$report" >&2
        exit 1
    fi
    mkdir -p "$here/target/bin"
    # Under another name first: the program may be running.
    cp "$here/crates/$name/out/$name" "$program.new"
    mv "$program.new" "$program"
}

# A line must not wait for a proof because somebody touched a file.
say_where_newer() {
    local newer
    newer="$(find "$here/crates" "$here/crates.txt" -name out -prune -o -type f -newer "$program" -print -quit)"
    if [ -n "$newer" ]; then
        echo "$name: ${newer#"$here/"} is newer than the program; ./$name --build proves and builds it anew" >&2
    fi
}

start() {
    case "$#:${1-}" in
    0:) ;;
    1:--build)
        build
        exit 0
        ;;
    1:--help)
        help
        exit 0
        ;;
    *)
        echo "$name: it takes no argument but --build or --help; calls come from standard input" >&2
        exit 2
        ;;
    esac
    if [ -x "$program" ]; then
        say_where_newer
    else
        build
    fi
    exec "$program"
}
