#!/bin/sh
# days.sh STATION [N]: converts yesterday by day.sh beside this file, and before it each of the N days before that has
# raw logs and no report, as after the machine was off or had no room, or that lacked epochs and has more logs now.
# Without N these are 6 days, and all since the latest one that has a report. It prints a line for each day that lacks
# something, and then fails.
set -eu
: "${1:?usage: days.sh STATION [N]}"
station=$1 days=${2:-6} today=$(date -u +%F)
case $days in
0?* | *[!0-9]*)
    echo "usage: days.sh STATION [N]" >&2
    exit 1
    ;;
esac
scripts=$(dirname -- "$(readlink -f -- "$0")")

# Prints the date of a number of days ago.
days_ago() { date -u -d "$today - $1 days" +%F; }

# Prints how many days ago the latest day before yesterday was that has a report, or 0 if none has.
latest_ago() {
    latest=$today yesterday=$(days_ago 1)
    for report in "obs/$station"/????-??-??.report; do
        # shellcheck disable=SC3012 # \< is in POSIX.1-2024
        { test -e "$report" && test "$report" \< "obs/$station/$yesterday.report"; } || break
        latest=${report##*/}
    done
    echo $((($(date -u -d "$today" +%s) - $(date -u -d "${latest%.report}" +%s)) / 86400))
}

# Prints the number of logs of a day that day.sh would read, or report as ones that it can't, as a link to a log that is
# missing.
count_logs() {
    logs=0
    for log in "raw/$station/$1"*; do
        case $log in *.rtcm3 | *.rtcm3.gz) logs=$((logs + 1)) ;; esac
    done
    echo "$logs"
}

# Whether a day was converted, with all its epochs or all the logs that there are.
is_done() {
    test -e "obs/$station/$1.report" || return 1
    case $(cat "obs/$station/$1.report") in *" epochs 2880") return ;; esac
    logs=$(count_logs "$1")
    had=$(sed -n 's/^logs //p' "obs/$station/$1.signals" 2> /dev/null) || :
    test "$logs" -le "${had:-$logs}"
}
is_missed() { test "$(count_logs "$1")" -gt 0 && ! is_done "$1"; }

# from the first day, N before yesterday or the one after the latest that has a report, to yesterday
ago=$((days + 1)) status=0
if test -z "${2-}"; then
    since=$(($(latest_ago) - 1))
    test "$since" -le "$ago" || ago=$since
fi
while test "$ago" -gt 0; do
    day=$(days_ago "$ago")
    if test "$ago" = 1 || is_missed "$day"; then
        sh "$scripts/day.sh" "$station" "$day" || status=1
    fi
    ago=$((ago - 1))
done
exit "$status"
