#!/usr/bin/env bash
# ./sv COMMAND ..   runs the program, from any folder, on standard input and with the arguments as
#                   they are: the released program if it was built from these sources, else one that
#                   is built here first.
# ./sv audit .. WEB-INF/web.xml ..   imports each web.xml first (tools/audit-web-xml).
# ./sv build        proves and builds the program from these sources.
# ./sv release      proves and builds the programs of release/.
set -eu
set -o pipefail
top=$(dirname "$(readlink -f "$0")")
program=sv
. "$top/tools/program"

# Proves and builds the crates of the program.
build() {
    local crates sum
    need_toolchain
    mapfile -t crates < <(program_crates)
    sum=$(source_sum)
    echo "sv: proving and building ${#crates[@]} crates; later runs start at once" >&2
    prove_together "${crates[@]}"
    note_sources "$built" "$sum"
    echo "sv: ${#crates[@]} of ${#crates[@]} done, $SECONDS s" >&2
}

# Proves and builds the programs of release/, and makes them the released ones.
release() {
    local name all
    local -A sums
    mapfile -t all < <(for name in "${released_programs[@]}"; do crates_below "$name"; done | awk '!seen[$0]++')
    echo "sv: proving and building ${#all[@]} crates for ${released_programs[*]}" >&2
    for name in "${released_programs[@]}"; do
        choose_program "$name"
        sums[$name]=$(source_sum)
    done
    choose_program sv
    prove_together "${all[@]}"
    for name in "${released_programs[@]}"; do
        choose_program "$name"
        note_sources "$built" "${sums[$name]}"
        install -m 755 "$built/$name" "$released"
        cp "$built/$name.sources" "$released"
    done
}

# Prints the usage of the command $1, `build` or `release`.
usage() {
    echo "sv $1"
    case $1 in
        build) echo "    proves and builds the program from its sources, in half an hour or more" ;;
        release) echo "    proves and builds sv, hello and guestbook, and makes them the released programs" ;;
    esac
}

# Runs the command $1, `build` or `release`, unless the arguments after it are wrong or ask for its
# usage.
build_command() {
    if [ $# = 1 ]; then
        need_toolchain sv "building from the sources"
        "$1"
    elif [[ $# == 2 && ($2 == -h || $2 == --help) ]]; then
        usage "$1"
    else
        printf 'sv: usage\n  usage: sv %s\n' "$1" >&2
        exit 2
    fi
}

case ${1:-} in
    build | release) build_command "$@" ;;
    help)
        if [[ $# == 2 && ($2 == build || $2 == release) ]]; then
            usage "$2"
            exit
        fi
        ;;&
    *)
        if runs_here && is_of_tree "$released"; then
            run=$released/sv
        else
            is_of_tree "$built" || build
            run=$built/sv
        fi
        if [[ ${1:-} == audit && " ${*:2} " == *".xml "* ]]; then
            exec "$top/tools/audit-web-xml" "$run" "${@:2}"
        fi
        exec "$run" "$@"
        ;;
esac
