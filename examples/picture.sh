#!/bin/sh
# picture.sh OBS NAME [SECONDS]: draws an observation file, also compressed by gzip, by gnuplot. NAME-satellites.png has
# which satellites are there when, coloured by their mean strength, with losses of lock and gaps; NAME-strength.png the
# mean strength of each signal. Times are GPS time, in hours of the first day.
#
# A column of the pictures is a period of SECONDS, a divisor of a day; by default the shortest of which there are at
# most 400. A gap is one by `rtcm2rinex check --gaps`, at the step that most epochs have. The data are made by
# picture-data.awk, which is in the folder of this script.
set -eu
: "${2:?usage: picture.sh OBS NAME [SECONDS]}"
obs=$1 name=$2 every=${3-} part=$2.$$.part
scripts=$(dirname -- "$(readlink -f -- "$0")")
# some awks read and print decimals with the comma of the locale
export LC_ALL=C
# it fails here if gzip does, whose status a pipe doesn't have
gzip -cdf -- "$obs" > /dev/null

# how the file is asked: its first and last second
ask() { gzip -cdf -- "$obs" | rtcm2rinex "$@"; }
times=$(ask check --times)
first=$(date -u -d "$(echo "$times" | sed -n 's/^first //p')" +%s)
last=$(date -u -d "$(echo "$times" | sed -n 's/^last //p')" +%s)
# The step that most epochs have to the next one, by their times of day: one epoch off the others, as after a restart,
# has another one. A clock that jitters changes it, so it is rounded: to 0.05 s below 0.75 s, else to 1 s.
step=$(gzip -cdf -- "$obs" | awk '
    $1 == ">" && NF > 3 {
        time = 3600 * $5 + 60 * $6 + $7
        step = time - last + (time > last ? 0 : 86400)
        if (epochs++) number[step < 0.75 ? int(20 * step + 0.5) / 20 : int(step + 0.5)]++
        last = time
    }
    END {
        usual = 1
        for (step in number) {
            if (number[step] < most || number[step] == most && step + 0 > usual + 0) continue
            most = number[step]
            usual = step
        }
        print (usual + 0 < 0.05 ? 0.05 : usual)
    }')
for seconds in 1 2 5 10 30 60 120 300 600 900 1800 3600 7200 14400 43200 86400; do
    test "$seconds" -lt "${step%.*}" || test $((last - first)) -gt $((400 * seconds)) || break
done
every=${every:-$seconds}
gaps=$(ask check --gaps "$step")
whole=$(ask quality)
periods=$(ask quality --every "$every")

# the data and what depends on them, as a program for gnuplot
data=$(printf '%s\n' "$whole" "$periods" "$gaps" |
    awk -v every="$every" -v step="$step" -f "$scripts/picture-data.awk")

# gnuplot doesn't fail where its output does, as on a full disk: a picture has its name when it is whole.
trap 'rm -f -- "$part-satellites.png" "$part-strength.png"' EXIT
trap 'exit 1' HUP INT TERM
# shellcheck disable=SC2016 # gnuplot has the names from the environment
{
    echo "$data"
    cat << 'END'
set terminal pngcairo size 1200,800 background "white" font "Sans,11" noenhanced
set style fill solid noborder
set tics nomirror
set grid xtics lc "#d0d0d0"

set output name . "-satellites.png"
set title file . ": satellites, periods of " . period
set yrange [rows + 0.5:0.5]
set y2range [rows + 0.5:0.5]
set tics scale 0 font "Sans,8"
set key outside top right horizontal
set cbrange [20:55]
set cblabel "mean strength, dB-Hz"
# no seams between the boxes
width = 1.2 * every
set palette maxcolors 35
set palette defined (20 "#440154", 29 "#3b528b", 37 "#21918c", 46 "#5ec962", 55 "#fde725")
plot $cells using 1:2:1:($1 + width):($2 - 0.4):($2 + 0.4):($3 > 0 ? $3 : NaN) with boxxy lc palette notitle, \
    $cells using 1:($3 > 0 ? NaN : $2):1:($1 + width):($2 - 0.4):($2 + 0.4) with boxxy lc "#b0d0f0" \
        title "no strength", \
    $gaps using 1:(0):1:2:(0):(rows + 1) with boxxy lc "#c8c8c8" title "gap", \
    $lost using 1:2 with points pt 7 ps 0.7 lc "white" notitle, \
    $lost using 1:2 with points pt 7 ps 0.4 lc "black" title "loss of lock"

if (lines == 0) exit
set output name . "-strength.png"
set title file . ": mean strength of the signals, periods of " . period
unset y2tics
unset arrow
unset ytics
set ytics font "Sans,11"
set ylabel "dB-Hz"
set yrange [low:high]
set grid ytics
set key outside right vertical
set tics font "Sans,11"
plot for [n = 0:lines - 1] $strength index n using 1:2 with linespoints lw 2 dt n / 8 + 1 pt 7 ps 0.3 \
    title columnheader(1)
END
} | NAME=$part FILE=${obs##*/} \
    gnuplot -e 'name = system("printf %s \"$NAME\""); file = system("printf %s \"$FILE\"")' -
for kind in satellites strength; do
    # without a strength there is no picture of it, also none of an earlier file
    test "$kind" = satellites || test -e "$part-$kind.png" || {
        rm -f -- "$name-$kind.png"
        break
    }
    tail -c 8 -- "$part-$kind.png" | grep -q IEND || {
        echo "$name-$kind.png: not written as a whole" >&2
        exit 1
    }
    mv -fT -- "$part-$kind.png" "$name-$kind.png"
done
