#!/bin/sh
# Runs the installed dmlw on the given words. At a terminal it adds --explain; so it does if DMLW_EXPLAIN is 1, and never if that is 0.
# `--which` prints the program's name. `--rebuild`, which the help lists for the launcher of the repository, needs the sources: it is left out of the help, and refused.
program=$(dirname "$(readlink -f "$0")")/../lib/dmlw/dmlw
case $* in
--which) readlink -f "$program" && exit ;;
--rebuild) echo 'dmlw: --rebuild is a word of ./dmlw in a checkout of the repository, which has the sources' >&2 && exit 2 ;;
'') "$program" 2>&1 >/dev/null | sed '/^ *--rebuild /d' >&2 && exit 2 ;;
help | --help | -h) help=$("$program" "$@") && printf '%s\n' "$help" | sed '/^ *--rebuild /d' && exit ;;
esac
for word in "$@"; do [ "$word" != --explain ] || exec "$program" "$@"; done
case ${DMLW_EXPLAIN-} in
1) set -- --explain "$@" ;;
0) ;;
*) [ ! -t 2 ] || set -- --explain "$@" ;;
esac
exec "$program" "$@"
