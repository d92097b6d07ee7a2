#!/bin/sh
# doppler.sh OBS: prints of how many satellite lines of an observation file the Doppler shift D of the first signal fits
# the phase L, whose change a second is -D, and of how many it has the wrong sign, as of u-blox F9 receivers. It fails
# if there is no such line.
# doppler.sh --turn OBS: prints the file with the other sign of each D.
set -eu
: "${1:?usage: doppler.sh [--turn] OBS}"
# some awks read and print decimals with the comma of the locale
export LC_ALL=C
# awk has the file as its input, since it takes names with = for assignments
if test "$1" = --turn; then
    obs=${2:?usage: doppler.sh --turn OBS}
    # a file that is cut isn't to become a whole one
    rtcm2rinex check < "$obs" > /dev/null || {
        echo "$obs: not a whole file as rtcm2rinex writes it" >&2
        exit 1
    }
    awk '
        /END OF HEADER/ { body = 1 }
        body && /^[A-Z]/ {
            for (n = 36; n < length($0); n += 64)
                if (substr($0, n, 14) * 1)
                    $0 = substr($0, 1, n - 1) sprintf("%14.3f", -substr($0, n, 14)) substr($0, n + 14)
        }
        { print }' < "$obs"
    exit
fi
awk '
    /END OF HEADER/ { body = 1 }
    $1 == ">" { time = 3600 * $5 + 60 * $6 + $7 }
    body && /^[A-Z]/ {
        id = substr($0, 1, 3)
        phase = substr($0, 20, 14)
        doppler = substr($0, 36, 14)
        if (phase * doppler * last[id] && time > at[id]) {
            rate = (last[id] - phase) / (time - at[id])
            if ((rate - doppler) ^ 2 < (rate + doppler) ^ 2) right++; else wrong++
        }
        last[id] = phase
        at[id] = time
    }
    END {
        if (!(right + wrong)) exit 1
        print right + 0 " fit, " wrong + 0 " have the wrong sign"
    }' < "$1" || {
    echo "$1: no line to compare" >&2
    exit 1
}
