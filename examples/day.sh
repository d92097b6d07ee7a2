#!/bin/sh
# day.sh STATION DAY: converts the raw logs of a station's day to its RINEX file of an epoch every 30 seconds, and
# checks it. It prints one line if the day lacks something, and then fails. In the current folder are
#
#   raw/STATION/    the raw logs, RTCM 3, also compressed by gzip, whose names begin with the day, of GPS time or UTC,
#                   and with the time of the day if it has several: 2024-02-04.rtcm3, or
#                   2024-02-04-130000.rtcm3.gz and others, in the order of the names, after one without a time unless
#                   it begins later. Files of other endings aren't read
#   headers/STATION options of `rtcm2rinex convert`, one a line, if there is such a file: --rec-type=SEPT POLARX5. They
#                   are the header texts and others that this script and the plan of `options` don't give; --station
#                   is given to `options`, --marker is the name of the station if there is none, and --leap-seconds,
#                   --glonass-channels, --position and --antenna-height replace those of the plan
#   obs/STATION/    the file with its RINEX name, the values of its signals with station and position, and last, by
#                   which days.sh knows that the day is done, the report of the conversion, unless the day isn't over
#
# A STATION has nine characters for the RINEX name, as KIRU00SWE: site, monument, receiver and country. SKIPPED is the
# largest percentage of bytes in no frame that isn't reported, 1 by default: more if the logs have other data too.
# The commands date, mv and sync are those of GNU. What the day lacks is put into words by day-lacks.awk, which is in
# the folder of this script.
set -eu
export LC_ALL=C
: "${2:?usage: day.sh STATION DAY}"
station=$1 day=$2
scripts=$(dirname -- "$(readlink -f -- "$0")")

# The phases of a day are the functions that the last lines of this script call, here in the same order, each after
# those that it calls. What a phase leaves to those after it, in variables, which are empty if there is no such thing:
#
#   check_names         before, after: the days beside it; weekday: 0 to 6, from Sunday; early: that it isn't over
#   prepare_files       made: the file; kept: the files beside it, without their endings; part, note, raw, raw_before,
#                       raw_after: temporary files
#   read_header         header_options: one a line; wanted: --station=..; leap, channels: the values of two options
#   collect_logs        folder: that of the logs; the day's own ones in `raw`; count: how many; left_out: names of those
#                       of another week; found: how many both are; own: the plan of `raw`, or why it has none
#   choose_logs_beside  earlier, later: raw_before and raw_after, if the file is also made of these ends of the logs
#                       beside the day; previous: the signals of the latest day before; position: that of `own`; ends:
#                       the plan of the end of `raw`, or why it has none
#   convert_logs        the file in `part`; plan and report of its conversion; gaps: what `check` prints of it
#   count_values        quality: what `quality` prints of the file; signals: the lines that are kept of it
#   find_lacks          lacks: what the day lacks, in words
#
# `errors` is what a command printed that failed.

# ---- what several phases use

# what is read of the begin or the end of a log, in bytes
end_size=2000000

# Prints a line of the day, also of an error of several lines, and fails.
# shellcheck disable=SC2048,SC2086 # split into words
say() {
    set -f
    set -- $*
    printf '%s\n' "$station $day: $*"
    exit 1
}

# Prints a log or a file. It is compressed by its name, as any bytes may be the first ones of a log.
plain() {
    case $1 in
    *.gz) gzip -cd "$1" ;;
    *) cat "$1" ;;
    esac
}

# Prints the plan of a stream of the day, or why there is none.
# shellcheck disable=SC2086 # there may be no station
options() { rtcm2rinex options "$@" $wanted 2>&1; }
plan_of_day() { options --near "$day"; }
# Prints the value of an option of a plan.
value_of() {
    case $2 in *"$1"[=\ ]*) set -- "${2##*"$1"[= ]}" && echo "${1%% *}" ;; esac
}
position_of() { value_of --position "$1"; }
channels_of() { value_of --glonass-channels "$1"; }
# Prints the weeks of the ephemerides of a stream, if there are several.
several_weeks() {
    set -- "$(options --week)"
    case $1 in *SeveralWeeks*) echo "${1##*SeveralWeeks }" ;; esac
}

# For awk, of a line of `show --all`: whether it is of an MSM4 to MSM7, and its time of the week in ms. Times of BeiDou
# are 14 seconds less than GPS time, those of GLONASS are of Moscow, without leap seconds.
# shellcheck disable=SC2016 # the fields of awk
msm='
    function is_msm() { return $2 ~ /^1(07|08|09|10|11|12)[4-7]$/ && NF == 8 }
    function gps_time(leap) { return $4 + ($2 ~ /^112/ ? 14000 : $2 ~ /^108/ ? 1000 * leap - 10800000 : 0) }'

# ---- names and options

check_names() {
    test -r "$scripts/day-lacks.awk" || say "no file: $scripts/day-lacks.awk is missing"
    case $station in
    [A-Z0-9][A-Z0-9][A-Z0-9][A-Z0-9][0-9][0-9][A-Z][A-Z][A-Z]) ;;
    *) say "no file: the name of a station has nine capital letters and digits, as KIRU00SWE" ;;
    esac
    case $day in
    [0-9][0-9][0-9][0-9]-[0-9][0-9]-[0-9][0-9]) ;;
    *) say "no file: a day is written as 2024-02-04" ;;
    esac
    before=$(date -u -d "$day - 1 day" +%F 2>&1) || say "no file: $before"
    after=$(date -u -d "$day + 1 day" +%F)
    weekday=$(date -u -d "$day" +%w)
    # before its logs are read
    early=''
    test "$(date -u +%s)" -ge "$(date -u -d "$after" +%s)" || early="the day isn't over"
}

prepare_files() {
    made=obs/$station/${station}_S_$(date -u -d "$day" +%Y%j)0000_01D_30S_MO.rnx
    kept=obs/$station/$day
    part=$made.$$.part note=$kept.$$.part
    raw=$kept.$$.raw raw_before=$kept.$$.before.raw raw_after=$kept.$$.after.raw
    errors=$(mkdir -p "obs/$station" 2>&1) || say "no file: $errors"
    # What a power cut left of earlier runs: files of the names above, two days old. It may fail: other runs are at
    # work.
    find "obs/$station" \( -name '????-??-??.[0-9]*.raw' -o -name '*.[0-9]*.part' \) -mtime +1 \
        -exec rm -f {} + 2> /dev/null || :
    trap 'rm -f "$part" "$note" "$raw" "$raw_before" "$raw_after"' EXIT
    trap 'exit 1' HUP INT TERM
}

newline='
'
add_option() { header_options=$header_options$1$newline; }
read_option() {
    case $1 in
    "" | "#"*) ;;
    --station=*) wanted=$1 ;;
    --marker=*) marker=$1 ;;
    # those that convert refuses
    --leap-seconds= | --leap-seconds=*[!0-9]*) add_option "$1" ;;
    --leap-seconds=*) leap=${1#*=} ;;
    --glonass-channels= | --glonass-channels=*[!-0-9:,]*) add_option "$1" ;;
    --glonass-channels=*) channels=${1#*=} ;;
    *) add_option "$1" ;;
    esac
}
read_header() {
    header=headers/$station header_options='' wanted='' marker=--marker=$station leap='' channels=''
    { test ! -e headers && test ! -L headers; } || test -x headers/. ||
        say "no file: headers is not readable, or no folder"
    if test -e "$header" || test -L "$header"; then
        { test -f "$header" && test -r "$header"; } || say "no file: $header is not readable"
        # also of a file that begins with a byte order mark, or whose lines end as those of Windows
        mark=$(printf '\357\273\277') end=$(printf '\r')
        while IFS= read -r option || test -n "$option"; do
            option=${option#"$mark"}
            read_option "${option%"$end"}"
        done < "$header"
    fi
    add_option "$marker"
}

# ---- the logs of the day

# not what is kept beside logs, as their times or sums
is_log() {
    case $1 in
    *.rtcm3 | *.rtcm3.gz) ;;
    *) return 1 ;;
    esac
}

# Prints the time of the first MSM of logs, in ms since half a week before the day.
begin_of() {
    for log; do ! is_log "$log" || plain "$log" 2> /dev/null; done | rtcm2rinex show --all 2> /dev/null |
        awk -v weekday="$weekday" "$msm"'
            is_msm() { print (gps_time(18) - weekday * 86400000 + 907200000) % 604800000; exit }'
}
# Calls a function with the logs of a day. One without a time of the day is before those that have one, which a logger
# wrote afterwards, unless it begins over a minute later, as it wrote them before: two loggers begin a day together.
with_logs() {
    untimed=$(begin_of "$folder/$2".*)
    timed=${untimed:+$(begin_of "$folder/$2"[!.]*)}
    if test "${untimed:-0}" -gt "$((${timed:-0} + 60000))"; then
        "$1" "$folder/$2"[!.]* "$folder/$2".*
    else
        "$1" "$folder/$2".* "$folder/$2"[!.]*
    fi
}

# Adds logs to `raw`, without those of another week by their ephemerides. Each is asked by itself, as one right
# ephemeris among all would do for a date.
take_logs() {
    for log; do
        is_log "$log" || continue
        found=$((found + 1))
        errors=$(plain "$log" 2>&1 > "$note") || say "no file: $errors"
        asked=$(plan_of_day < "$note") || :
        case $asked in
        *OtherWeek*) left_out="$left_out ${log##*/}" && continue ;;
        esac
        if test "$count" = 0; then
            errors=$(mv -f "$note" "$raw" 2>&1)
        else
            errors=$(cat "$note" 2>&1 >> "$raw")
        fi || say "no file: $errors"
        count=$((count + 1)) own=$asked
    done
}
collect_logs() {
    folder=raw/$station found=0 count=0 left_out=''
    test ! -d "$folder" || { test -r "$folder" && test -x "$folder"; } || say "no file: $folder is not readable"
    with_logs take_logs "$day"
    test "$count" -gt 0 || test -z "$left_out" || say "no file: $asked"
    test "$count" -gt 0 || say "no log"
    test "$count" = 1 || own=$(plan_of_day < "$raw") || :
}

# ---- the logs beside it

# An empty log is none, as of a logger that was started in vain, also if it is compressed.
has_bytes() {
    case $1 in
    *.rtcm3.gz) test "$(plain "$1" 2> /dev/null | head -c 1 | wc -c)" -gt 0 ;;
    *.rtcm3) test -f "$1" && test -r "$1" && test -s "$1" ;;
    *) return 1 ;;
    esac
}
take_last() { for log; do ! has_bytes "$log" || last=$log; done; }
take_first() { for log; do ! has_bytes "$log" || { first=$log && return; }; done; }

# Finds the latest day before that has a file, with the position of the station.
find_previous() {
    previous=/dev/null
    for file in "obs/$station"/????-??-??.signals; do
        # shellcheck disable=SC3012 # \< is in POSIX.1-2024
        { test -e "$file" && test "$file" \< "$kept.signals"; } || break
        previous=$file
    done
    was_at=$(sed -n 's/^station .* position //p' "$previous")
}

# Whether a part of a log beside the day is of its week, and of its position, or that of the latest day before it.
fits() {
    beside=$(plan_of_day < "$1") && test -z "$(several_weeks < "$1")" || return 1
    at=${2:-$was_at}
    case $at in '' | none) return ;; esac
    case $(position_of "$beside") in '' | "$at") ;; *) return 1 ;; esac
}
end_of() {
    case $1 in
    # str2str begins the next log half a minute before an hour: one that begins later has the first hour of the day
    *-2359[3-5]?.*) plain "$1" 2> /dev/null || : ;;
    *) plain "$1" 2> /dev/null | tail -c "$end_size" ;;
    esac
}
# The first and the last seconds of the day may be in the logs beside it: those of UTC begin 18 seconds after the GPS
# day. The day is made without such a log if it is damaged, of another week, or of a station at another position.
choose_logs_beside() {
    last='' first='' earlier='' later=''
    with_logs take_last "$before"
    with_logs take_first "$after"
    find_previous
    position=$(position_of "$own")
    ends=$(tail -c "$end_size" "$raw" | plan_of_day) || :
    if test "$last" && end_of "$last" > "$raw_before" && fits "$raw_before" "$position"; then
        earlier=$raw_before
    fi
    if test "$first" && plain "$first" 2> /dev/null | head -c "$end_size" > "$raw_after" &&
        fits "$raw_after" "$(position_of "$ends")"; then
        later=$raw_after
    fi
}

# ---- the conversion

has_neighbour() { test "$earlier$later"; }
# Runs a command on the logs.
on_logs() {
    if has_neighbour; then
        cat ${earlier:+"$earlier"} "$raw" ${later:+"$later"} | "$@"
    else
        "$@" < "$raw"
    fi
}

# Prints the height of the antenna of a station that sends 1005 and 1006 by turns, the 1005 first.
later_height() {
    case $plan in *" --antenna-height "*) return ;; *" --position="*) ;; *) return ;; esac
    head -c "$end_size" "$raw" | rtcm2rinex show 2> /dev/null | awk -v own="${wanted#--station=}" '
        own != "" && own != $3 { next }
        $2 == 1006 && NF == 7 && height == "" { height = $7 }
        $2 == 1005 && NF == 6 && height != "" { print height; exit }'
}
# Takes an option of headers/ out of the plan.
leave_out() {
    case $newline$header_options in *"$newline$1="*) plan=$(echo "$plan" | sed "s/ $1[= ][^ ]*//") ;; esac
}
# The options that fit the logs, with the first channel that the day's own logs have for a slot of GLONASS.
make_plan() {
    plan=$own
    ! has_neighbour || plan=$(on_logs plan_of_day) || :
    case $plan in --*) ;; *) errors=$plan && return 1 ;; esac
    height=$(later_height)
    plan="$plan${height:+ --antenna-height $height}"
    leave_out --position
    leave_out --antenna-height
    test -z "$leap" || plan=$(echo "$plan" | sed "s/--leap-seconds [0-9]*/--leap-seconds $leap/")
    list=${channels:-$(printf '%s\n' "$(channels_of "$own")" "$(channels_of "$plan")" | tr ',' '\n' | awk -F : '
        NF == 2 && !had[$1]++ { printf "%s%s", comma, $0; comma = "," }')}
    test -z "$list" || plan="$(echo "$plan" | sed 's/ --glonass-channels [^ ]*//') --glonass-channels $list"
}
# Runs a command with the options of the station as its last words.
with_header() (
    set -f
    IFS=$newline
    # shellcheck disable=SC2086 # split at the ends of lines
    exec "$@" $header_options
)
# Recordings have no hurry: an epoch is closed by a later one, so that repeated messages can't end it.
# shellcheck disable=SC2069,SC2086 # errors are printed; the shell has to split a plan into options
convert_to() {
    with_header rtcm2rinex convert --gather time --interval 30 --from "$day" --until "$after" \
        --date "$(date -u '+%Y%m%d %H%M%S UTC')" $plan 2>&1 > "$1"
}
convert() {
    make_plan || return 1
    report=$(on_logs convert_to "$1") || { errors=$report && return 1; }
}
# Converts without the logs beside the day, which later calls read again if this is called in a subshell.
alone() { has_neighbour && earlier='' later='' && convert "$1"; }
check_file() { rtcm2rinex check --gaps 30 --from "$day" --until "$after" < "$1" 2>&1; }
epochs_in() { echo "$1" | sed -n 's/^epochs \([0-9]*\) .*/\1/p'; }

convert_logs() {
    convert "$part" || alone "$part" || say "no file: $errors"
    gaps=$(check_file "$part") || say "no file: $gaps"
    # Messages of the day are late after a log beside it that runs far into the day: then the file without it has more.
    if has_neighbour && test "$(epochs_in "$gaps")" -lt 2880; then
        more=$(alone "$note" && epochs_in "$(check_file "$note")") || more=0
        if test "${more:-0}" -gt "$(epochs_in "$gaps")"; then
            alone "$part" || say "no file: $errors"
            gaps=$(check_file "$part") || say "no file: $gaps"
        fi
    fi
}

# ---- what the day has, and what it lacks

# By the number of logs days.sh knows that some came later.
count_values() {
    quality=$(rtcm2rinex quality < "$part")
    number=${wanted#--station=}
    # the number of an MSM or of a position, as for `options`
    test "$number" || number=$(rtcm2rinex show --all < "$raw" 2> /dev/null |
        awk '$2 !~ /^10(07|08|33)$/ && NF > 5 { print $3; exit }')
    signals=$(echo "$quality" | grep '^signal ') || :
    signals="$signals
logs $found
station ${number:-unknown} position ${position:-none}"
}

# GLONASS has one channel for each slot in the file, the first one in the day's own logs: prints one that has another
# channel later, by eight parts of them.
channels_in() {
    channels_of "$(tail -c "+$(($1 * size / 8 + 1))" "$raw" 2> /dev/null |
        head -c "$((size < 4000000 ? size / 8 : 500000))" | plan_of_day)"
}
other_channels() {
    test -z "$channels" && test "$(channels_of "$own")" || return 0
    { channels_of "$own" && for n in 1 2 3 4 5 6 7; do channels_in "$n"; done; } | tr ',' '\n' | awk -F : '
        $1 in of && of[$1] != $2 { print "slot " $1 " has the channels " of[$1] " and " $2; exit }
        { of[$1] = $2 }'
}

# Prints how many bytes of the day's own logs are in no frame, which has six besides its message.
lost_bytes() {
    case $report in
    *" skipped_bytes 0 "*) echo 0 ;;
    *) rtcm2rinex frames < "$raw" | awk -v size="$size" '{ size -= $2 + 6 } END { print size + 0 }' ;;
    esac
}

# Prints how many messages are lost. Logs that overlap repeat messages, which are counted as late. Lost is a message of
# the day and of an earlier time than one before it, if it comes for the first time: of several of its number and time
# those with other numbers of satellites, signals and cells are told apart, and others aren't.
late_messages() {
    case $report in *" late 0 "*) echo 0 && return ;; esac
    offset=$(value_of --leap-seconds "$plan")
    on_logs rtcm2rinex show --all | awk -v own="${wanted#--station=}" -v leap="${offset:-18}" -v weekday="$weekday" \
        -v week=604800000 -v day=86400000 "$msm"'
        own != "" && $3 != own { next }
        is_msm() && !seen[$2, $3, $4, $5, $6, $7, $8]++ {
            time = gps_time(leap)
            back = (last - time + 2 * week) % week
            is_late = started++ && back > 0 && back < week / 2
            if (!is_late) last = time
            else if ((time - weekday * day + 2 * week) % week < day) late++
        }
        END { print late + 0 }'
}

# Prints messages with observations that aren't converted, by system, if all are of this station.
unconverted() {
    test "$wanted" || head -c "$end_size" "$raw" | rtcm2rinex frames 2> /dev/null | awk '
        $2 <= 10 { next }
        $3 ~ /^100[1-4]$/ || $3 ~ /^107[1-3]$/ { of["G"] = $3 }
        $3 ~ /^1009$|^101[0-2]$/ || $3 ~ /^108[1-3]$/ { of["R"] = $3 }
        $3 ~ /^109[1-3]$/ { of["E"] = $3 }
        $3 ~ /^110[1-3]$/ { of["S"] = $3 }
        $3 ~ /^111[1-3]$/ { of["J"] = $3 }
        $3 ~ /^112[1-3]$/ { of["C"] = $3 }
        END { for (letter in of) print "unconverted", letter, of[letter] }' | sort
}

# Prints the report of the day's own logs, as the faults of those beside it are those of other days. Logs that overlap
# always repeat a few cells.
own_report() {
    taken=${report##* taken } repeated=${report##* repeated }
    case $report in
    *" faulty 0 "*" past 0 "*" crowded 0 "*) test "$((50 * ${repeated%% *}))" -le "${taken%% *}" ;;
    *) false ;;
    esac || (alone "$note" && echo "$report") || echo "$report"
}

# Prints the weeks of the ephemerides, if there are several: those of GPS, which are known modulo 1,024, are found at
# the end of the logs only.
weeks_of_logs() {
    weeks=$(several_weeks < "$raw")
    test "$weeks" || case $ends in *OtherWeek*) weeks=${ends##*OtherWeek } ;; esac
    echo "$weeks"
}

# Prints what day-lacks.awk has to know of the day.
# shellcheck disable=SC2086 # names of logs; there may be no station
facts() (
    set -f
    size=$(wc -c < "$raw")
    test -z "$early" || echo "early $early"
    test -z "$left_out" || printf '%s\n' "left_out$left_out"
    printf '%s\n' "$gaps" "$signals"
    echo "several $(weeks_of_logs)"
    echo "bytes $size lost $(lost_bytes) skipped ${SKIPPED:-1}"
    echo "own_logs $count"
    echo "header $(sed -n '/^.\{60\}APPROX POSITION XYZ/ { s/ *APPROX POSITION XYZ.*//p; q; }' "$part")"
    echo "counts $(own_report)"
    echo "report $report"
    echo "late $(late_messages)"
    other_channels
    unconverted
    rtcm2rinex signals $wanted < "$raw" 2> /dev/null | sed 's/^/heard /'
)
find_lacks() {
    of_day=$(facts)
    day_before=${previous##*/}
    lacks=$(printf '%s\n' "$of_day" |
        awk -v before="${day_before%.signals}" -f "$scripts/day-lacks.awk" - when=before "$previous")
}

# ---- what is kept

# Prints the numbers of epochs, satellites and values, of what `quality` prints.
sizes() {
    echo "$1" | awk '
        $1 == "epochs" { counts = $2 " " $4 }
        $1 == "signal" { values += $7 + $9 + $11 + $13 }
        END { print counts, values + 0 }'
}
# A file that was made of more is kept, also if it is compressed by now, and one that can't be read or that isn't as
# this script writes them. One that is cut, as by a power cut, is made again.
keep_file_of_more() {
    for there in "$made" "$made.gz"; do
        test -s "$there" || continue
        had=$({ plain "$there" > "$note" && rtcm2rinex quality < "$note"; } 2>&1) || case $had in
        *CutShort* | *"unexpected end of file"*) continue ;;
        *) say "$there is kept, which is damaged or not of this script: $had" ;;
        esac
        # shellcheck disable=SC2046 # the numbers of epochs, satellites and values of both
        set -- $(sizes "$quality") $(sizes "$had")
        { test "$1" -ge "$4" && test "$2" -ge "$5" && test "$3" -ge "$6"; } || say "$1 epochs with $2 satellites and" \
            "$3 values, and $4 with $5 and $6 in the file that there is, which is kept"
    done
}

keep() {
    errors=$({ echo "$2" > "$note" && sync "$note" && mv -fT "$note" "$1"; } 2>&1) || say "no report: $errors"
}
# Each file has its name only when it is complete and on the disk; where this is interrupted, there is no report.
keep_files() {
    rm -f "$kept.report"
    errors=$({ sync "$part" && mv -fT "$part" "$made" && rm -f "$made.gz"; } 2>&1) || say "no file: $errors"
    keep "$kept.signals" "$signals"
    # what comes later in the day is converted by days.sh, as there is no report
    test "$early" || keep "$kept.report" "$report"
}

check_names
prepare_files
read_header
collect_logs
choose_logs_beside
convert_logs
count_values
keep_file_of_more
find_lacks
keep_files
test -z "$lacks" || say "$lacks"
