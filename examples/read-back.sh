#!/bin/sh
# read-back.sh FILE ..: checks observation files, also compressed by gzip, and prints the number of epochs, the first
# and the last time of each, or why it isn't accepted. It fails if one isn't.
set -eu
: "${1:?usage: read-back.sh FILE ..}"
status=0
for file; do
    # read twice, since a pipe doesn't have the status of gzip
    if times=$(gzip -cdf -- "$file" 2>&1 > /dev/null && gzip -cdf -- "$file" | rtcm2rinex check --times 2>&1); then
        # the name by the environment, as awk reads escapes of its variables
        echo "$times" | file=$file awk '
            $1 == "epochs" { epochs = $2 }
            $1 == "first" { first = $2 " " $3 }
            $1 == "last" { print ENVIRON["file"] ": " epochs " epochs from " first " to " $2 " " $3 }'
    else
        # shellcheck disable=SC2086 # the lines of gzip become one
        echo "$file:" $times
        status=1
    fi
done
exit "$status"
