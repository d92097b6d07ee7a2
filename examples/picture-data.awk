# picture-data.awk: prints the data of the pictures of a file, and what depends on them, as a program for gnuplot, for
# picture.sh. It reads the lines of `quality`, of `quality --every` and of `check --gaps`. Given are, in seconds,
# `every`, the period of a column, and `step`, that of the epochs.

$1 == "gap" { gap_begin[++gaps] = seconds($2 " " $3) + step; gap_end[gaps] = seconds($4 " " $5) }
$1 == "signal" && $13 > 0 { signals[++lines] = $2 " " $3 }
$1 == "satellite" { satellites[++rows] = $2 }
# a satellite and signal in a period
$1 ~ /T/ { add_period(seconds($1), $2, substr($2, 1, 1) " " $3, $11, $11 * $17, $13) }

END {
    print_gaps()
    print_cells()
    print_losses()
    print_strengths()
    print_times()
    print "rows = " rows
    print "lines = " lines + 0
    print "low = " int(low) - 1
    print "high = " int(high) + 2
    print_satellites()
}

# Adds a number of strengths, their sum, and losses of lock to a column.
function add_period(at, satellite, signal, number, sum, losses,   x) {
    if (!columns) { day = substr($1, 1, 10); midnight = at - at % 86400 }
    x = at - midnight
    if (!columns || x != column[columns]) column[++columns] = x
    cells[x, satellite] += sum
    strengths[x, satellite] += number
    lost[x, satellite] += losses
    sums[x, signal] += sum
    values[x, signal] += number
}

# A gap is of half a column at least, to be seen. A block without a point is an error.
function print_gaps(   n) {
    print "$gaps << EOD\nNaN NaN"
    for (n = 1; n <= gaps; n++)
        print gap_begin[n] - midnight, max(gap_end[n], gap_begin[n] + every / 2) - midnight
    print "EOD"
}

function print_cells(   n, i, key) {
    print "$cells << EOD"
    for (n = 1; n <= rows; n++)
        for (i = 1; i <= columns; i++)
            if ((key = column[i] SUBSEP satellites[n]) in cells)
                print column[i], n, (strengths[key] ? cells[key] / strengths[key] : 0)
    print "EOD"
}

function print_losses(   n, i) {
    print "$lost << EOD\nNaN NaN"
    for (n = 1; n <= rows; n++)
        for (i = 1; i <= columns; i++)
            if (lost[column[i], satellites[n]]) print column[i] + every / 2, n
    print "EOD"
}

# Prints the mean strengths of each signal, whose line ends at a period without a value.
function print_strengths(   n, i, key, mean) {
    print "$strength << EOD"
    low = 100
    for (n = 1; n <= lines; n++) {
        print "\"" signals[n] "\""
        for (i = 1; i <= columns; i++) {
            key = column[i] SUBSEP signals[n]
            if (i > 1 && column[i] > column[i - 1] + every || !values[key]) print ""
            if (!values[key]) continue
            mean = sums[key] / values[key]
            print column[i] + every / 2, mean
            low = min(low, mean)
            high = max(high, mean)
        }
        print "\n"
    }
    print "EOD"
}

# A day as a whole, or the part that the file has.
function print_times(   begin, end, steps, count, i, format) {
    begin = column[1]
    end = column[columns] + every
    if (end <= 86400 && end - begin > 43200) { begin = 0; end = 86400 }
    count = split("1 2 5 10 15 30 60 120 300 600 900 1800 3600 7200 10800 14400 21600 43200 86400", steps, " ")
    for (i = 1; i < count && steps[i] < (end - begin) / 13; i++);
    format = steps[i] % 3600 == 0 ? "%tH" : steps[i] % 60 == 0 ? "%tH:%tM" : "%tH:%tM:%tS"
    print "set xrange [" begin ":" end "]"
    print "set xtics time format \"" format "\" " steps[i]
    print "set xlabel \"GPS time from " day " 0 h\""
    print "every = " every "; period = \"" every " s\""
}

# The satellites of many rows are named at both sides by turns.
function print_satellites(   sides, n, tick) {
    sides = rows > 60 ? 2 : 1
    print "set ytics ()" (sides == 2 ? "; set y2tics ()" : "")
    for (n = 1; n <= rows; n++) {
        tick = "(\"" satellites[n] "\" " n ")"
        print "set " (n % sides ? "y2tics" : "ytics") " add " tick
        if (n > 1 && substr(satellites[n], 1, 1) != substr(satellites[n - 1], 1, 1))
            print "set arrow from graph 0, first " n - 0.5 " to graph 1, first " n - 0.5 " nohead lc \"#808080\""
    }
}

function min(one, other) { return one < other ? one : other }
function max(one, other) { return one > other ? one : other }

# Returns the seconds of a time since some day.
function seconds(time,   year, month, days) {
    year = substr(time, 1, 4)
    month = substr(time, 6, 2) - 3
    if (month < 0) { year--; month += 12 }
    days = 365 * year + int(year / 4) - int(year / 100) + int(year / 400) + int((153 * month + 2) / 5)
    days += substr(time, 9, 2)
    return 86400 * days + 3600 * substr(time, 12, 2) + 60 * substr(time, 15, 2) + substr(time, 18)
}
