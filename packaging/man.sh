#!/bin/sh
# Prints the manual page: docs/dmlw.1, with the commands and their words that the program's `help` prints.
#
#   packaging/man.sh PROGRAM
set -eu
page=$(dirname "$(readlink -f "$0")")/../docs/dmlw.1
for name in $("$1" help | sed -n 's/^  \([a-z][a-z]*\)  .*/\1/p'); do
    [ "$name" = help ] || "$1" help "$name" | awk '
        NR == 1 { about = $0 }
        # The line `Usage: dmlw NAME <WORD> ..`, and the line of each word.
        /^Usage: / { sub(/\[OPTIONS\] /, ""); gsub(/[<>]/, ""); sub(/^Usage: [^ ]+ [^ ]+ /, ""); printf ".TP\n.BI \"%s \" \"%s\"\n%s.\n", name, $0, about }
        /^  </ { word = $1; gsub(/[<>]/, "", word); sub(/^  [^ ]+ +/, ""); printf ".br\n.IR %s :\n%s.\n", word, $0 }
    ' name="$name"
done | sed '/^\.SH COMMANDS$/r /dev/stdin' "$page"
