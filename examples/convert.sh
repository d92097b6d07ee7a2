#!/bin/sh
# convert.sh RAW OBS [OPTION ..]: converts a recording to an observation file with its signals and its position.
#
# The week is the one that the recording's ephemerides have. For a recording without ephemerides give the date of its
# begin:
#   DAY=2024-02-04 sh convert.sh s.rtcm3 s.obs
# and for one of several stations its number, as STATION=2003. Further options are those of `rtcm2rinex convert` that
# the script and the plan of `options` don't give, such as --interval 30. The report is printed. It also prints what is
# wrong with the file, and fails: if the ephemerides of BeiDou or Galileo of a recording with a date have several weeks,
# as after a gap of over half a week, or if most observations were late, as after one message of a time ahead.
set -eu
: "${2:?usage: convert.sh RAW OBS [OPTION ..]}"
raw=$1 obs=$2
shift 2
if test ! -f "$raw"; then
    echo "$raw: missing, or no file, such as a pipe: it is read twice" >&2
    exit 1
fi
# a symbolic link stays one
link=$obs
test ! -L "$obs" || obs=$(readlink -f -- "$link") || {
    echo "$link: a link to a folder that is missing" >&2
    exit 1
}
part=$obs.$$.part
# shellcheck disable=SC3013 # -ef is in POSIX.1-2024
if { test -e "$obs" && test ! -f "$obs"; } || test "$raw" -ef "$obs"; then
    echo "$obs: a folder, a device or the like, or the recording" >&2
    exit 1
fi

# the options that fit the recording: week, station, signals, GLONASS channels, position
options() { rtcm2rinex options "$@" ${STATION:+--station "$STATION"} < "$raw"; }
several=''
if test "${DAY-}"; then
    plan=$(options --near "$DAY")
    # one of several weeks may be that of the date
    weeks=$(options --week 2>&1) || case $weeks in *SeveralWeeks*) several=${weeks##*SeveralWeeks } ;; esac
else
    plan=$(options --week)
fi

# The file has its name only when it is complete. Not every shell runs the trap of EXIT at a signal.
trap 'rm -f -- "$part"' EXIT
trap 'exit 1' HUP INT TERM
# Recordings have no hurry: an epoch is closed by a later one, so that repeated messages can't end it.
# shellcheck disable=SC2086 # the shell has to split a plan into options
report=$(rtcm2rinex convert --gather time --date "$(date -u '+%Y%m%d %H%M%S UTC')" $plan "$@" \
    2>&1 < "$raw" > "$part") || {
    status=$?
    printf '%s\n' "$report" >&2
    exit "$status"
}
echo "$report" >&2
mv -f -- "$part" "$obs"
# Those that came before are late too, as of a part that is repeated: of each MSM that came, the first is counted.
first_msms() {
    rtcm2rinex show --all < "$raw" | awk -v own="${STATION-}" '
        own != "" && own != $3 { next }
        $2 ~ /^1(07|08|09|10|11|12)[4-7]$/ && NF == 8 && !seen[$2, $3, $4, $5, $6, $7, $8]++ { n++ }
        END { print n + 0 }'
}
late=$(echo "$report" | awk '
    { for (i = 1; i < NF; i += 2) n[$i] = $(i + 1) }
    END { if (n["late"] > n["taken"]) print n["late"] " messages were late, and only " n["taken"] }')
test -z "$late" || test "$(first_msms)" -gt $((2 * ${late##* })) || late=''
test -z "$late" || {
    echo "$raw: $late were taken: see LATE OBSERVATIONS of the manual page" >&2
    exit 1
}
test -z "$several" || {
    echo "$raw: ephemerides have several weeks for the first message, $several: after a gap the week is wrong" >&2
    exit 1
}
