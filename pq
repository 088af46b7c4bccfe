#!/usr/bin/env bash
# Runs the proved program with the words and the standard input that it is given, from any folder: the one in dist/,
# where it was built for this kind of machine from the sources as they stand, else one that was or is now built here.
# Where standard error is a terminal, dist/hints adds to what the program says. Anywhere else every byte is its own.
set -u
for tool in readlink dirname uname sha256sum xargs sort cut grep find; do
    command -v "$tool" >/dev/null || { echo "pq: there is no command $tool on the PATH, which pq needs" >&2; exit 69; }
done
top=$(dirname "$(readlink -f "${BASH_SOURCE[0]}")")
for part in program common.sh build hints words; do
    [ -f "$top/dist/$part" ] ||
        { echo "pq: $top/dist/$part is missing: pq has to stand in its whole repository" >&2; exit 66; }
done
program=$(bash "$top/dist/program" --found)
status=$?
case $status in
    0) ;;
    # It builds in this very process, so that whoever stops pq stops the build, and then starts pq anew.
    1) exec bash "$top/dist/build" bash "$top/pq" "$@" ;;
    *) exit "$status" ;;
esac
[ ! -t 2 ] || exec bash "$top/dist/hints" "$program" "$@"
exec "$program" "$@"
