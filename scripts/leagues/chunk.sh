#!/bin/sh
# run PLAN BEGIN COUNT: plays COUNT series of a plan, the first of which begins at this byte, and writes a record of each.
# All files are beside this one, or in ../sources. The plan's first line names the program that is meant. If that isn't there, it is
# $CROBOTS, or crobots on the path: another program than that of the plan is refused by its hash. The status is 1 if a series failed.
if [ $# -ne 3 ]; then
    echo "usage: run PLAN BEGIN COUNT" >&2
    exit 2
fi
here=$(dirname -- "$0")
tab=$(printf '\t')
read -r named <"$here/$1" || exit 1
program=$(command -v -- "${CROBOTS:-$named}") || program=$(command -v crobots) || {
    echo "run: there is no $named, and no crobots on the path" >&2
    exit 1
}
tail -c "+$(($2 + 1))" -- "$here/$1" | head -n "$3" | {
    status=0
    while IFS=$tab read -r head options files; do
        set --
        for file in $files; do set -- "$@" "$here/../sources/$file"; done
        # the options are words
        # shellcheck disable=SC2086
        sh "$here/series" "$head" "$program" $options "$@" </dev/null || status=1
    done
    exit $status
}
