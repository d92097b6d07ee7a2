#!/bin/sh
# nightly.sh [DAY [HOSTS]]: converts a day of each station in the file `stations`, one a line, by day.sh in this folder,
# as many stations at once as there are processors. Without DAY, or where it is empty, it is yesterday, and with it days
# before that were missed, by days.sh. It prints a line for each day that lacks something, and nothing of a good day;
# its status is the number of stations with such a day, at most 101. The list is read each time; its blank lines and
# those that begin with # are skipped.
#
# HOSTS, as `:,gnss@host`, in which `:` is this machine, take part by ssh. They see the current folder and this script
# under the same names, and have rtcm2rinex and GNU parallel in the PATH of their shells.
set -eu
# in another locale bytes of another code are no text
export LC_ALL=C
day=${1-}
# hosts have the folder by its own name, of which a part may be a link
script=$0
test ! -L "$script" || script=$(readlink -f -- "$script")
scripts=$(CDPATH='' cd -- "$(dirname -- "$script")" && pwd)
# also of a list that begins with a byte order mark, or whose lines end as those of Windows, or with blanks
mark=$(printf '\357\273\277')
list=$(tr -d '\r\0' 2> /dev/null < stations | sed "1s/^$mark//; s/^[[:blank:]]*//; s/[[:blank:]]*\$//" |
    grep -av -e '^#' -e '^$') || {
    echo "stations: missing, unreadable or empty" >&2
    exit 1
}
if test $# -gt 1; then
    set -- --sshlogin "$2" --workdir "$PWD"
else
    set --
fi
if test "$day"; then
    set -- "$@" -q sh "$scripts/day.sh" {} "$day"
else
    set -- "$@" -q sh "$scripts/days.sh" {}
fi
# -q keeps the blanks of a path
exec parallel "$@" << END
$list
END
