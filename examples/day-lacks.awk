# day-lacks.awk: prints in one line what a day lacks, or nothing, for day.sh. A fact is a line whose first words are:
#
#   early TEXT                  the day isn't over
#   left_out NAME ..            logs that are left out
#   gap, epochs and complete    what `check --gaps` prints of the day's file
#   several WEEK ..             weeks of ephemerides, if there are several
#   bytes N lost N skipped P    bytes of the day's own logs, those in no frame, and the percentage that may be
#   own_logs N                  own logs that were converted
#   header X Y Z                the position in the header of the file
#   counts NAME N ..            the report of the conversion of the day's own logs
#   report NAME N ..            that of the conversion which made the file
#   late N                      messages of the day that are lost, as they were late
#   slot N has ..               a GLONASS slot that has several channels
#   unconverted SYSTEM NUMBER   observations of a system in messages of a number that isn't converted
#   heard SYSTEM CODE CELLS     a signal of the day's own logs
#   signal and station          as in the file of the day's signals
#
# After `when=before` it reads the file of the signals of an earlier day, of the date `before`.

BEGIN {
    when = "now"
    split("values|pseudoranges|phases|Doppler shifts|strengths", kinds, "|")
}

$1 == "signal" { read_signal($2 " " $3) }
$1 == "station" { number[when] = $2; position[when] = $4 }
when == "before" { next }

$1 == "early" || $1 == "left_out" || $1 == "several" || $1 == "slot" { text[$1] = substr($0, length($1) + 2) }
$1 == "gap" && !gaps++ { first_gap = $2 " " $3 " to " $4 " " $5 }
$1 == "epochs" { epochs = $2; changes = $6 }
$1 == "complete" { at_times = $2; of_times = $4 }
$1 == "bytes" { bytes = $2; lost_bytes = $4; may_be_lost = $6 }
$1 == "own_logs" { own_logs = $2 }
$1 == "header" { has_position = $2 != 0 || $3 != 0 || $4 != 0 }
$1 == "late" { late = $2 }
$1 == "counts" { for (i = 2; i < NF; i += 2) count[$i] = $(i + 1) }
# those of the plan, whose channels may be from a log beside the day
$1 == "report" { for (i = 2; i < NF; i += 2) if ($i == "without_channel") count[$i] = $(i + 1) }
$1 == "unconverted" { systems_apart[++apart] = $2; message[apart] = $3 }
$1 == "heard" { heard[++signals_heard] = $2 " " $3; cells_heard[signals_heard] = $4; all_heard += $4 }

END {
    add_logs()
    add_epochs()
    add_station()
    add_messages()
    add_systems()
    add_signals()
    print lacks
}

function add(what) { lacks = lacks (lacks == "" ? "" : "; ") what }

# Takes the values of a signal: of each kind, and of all as the first one.
function read_signal(signal,   kind, most) {
    if (when == "before") signals[++signals_before] = signal
    else is_converted[$2] = 1
    for (kind = 2; kind <= 5; kind++) {
        values[when, signal, kind] = $(3 + 2 * kind)
        values[when, signal, 1] += $(3 + 2 * kind)
        if ($(3 + 2 * kind) > most) most = $(3 + 2 * kind)
    }
    if (when != "before") cells += most
}

function add_logs() {
    if (text["early"]) add(text["early"])
    if (text["left_out"]) add("left out, as their ephemerides have another week: " text["left_out"])
}

function add_epochs() {
    if (at_times < of_times)
        add(at_times " of " of_times " epochs, " gaps " gaps, the first from " first_gap)
    if (epochs > at_times) add(epochs " epochs at " at_times " times, as by two clocks")
    if (changes) add(changes " changes of the position or the height")
}

# Another station than before, or another position of it, or none.
function add_station(   is_moved) {
    is_moved = position["before"] != "none" && position["before"] != position["now"]
    if (number["before"] != "" && (number["before"] != number["now"] || is_moved))
        add("station " place("now") ", which was " place("before") " on " before)
    else if (!has_position && !changes)
        add("the position in the header is 0, 0, 0, as " (position["now"] == "none" ? "none was sent" : "it was sent") \
            ": headers/ may have --position")
}

function place(at) { return number[at] (position[at] == "none" ? " without a position" : " at " position[at]) }

function add_messages(   names, n, i) {
    if (text["several"]) add("the ephemerides have several weeks for the first message, " text["several"])
    if (100 * lost_bytes > may_be_lost * bytes)
        add(int(100 * lost_bytes / bytes + 0.5) " % of the bytes are in no frame")
    # more than an epoch for each log, as logs overlap, and one in fifty, as a caster repeats what it sent last
    if (epochs && count["repeated"] > own_logs * cells / epochs + all_heard / 50)
        add(count["repeated"] " cells are repeated in " count["taken"] " messages, as by two receivers of one number" \
            " or in two forms")
    if (late > 0) add(late " late messages are lost")
    n = split("faulty past crowded without_channel", names, " ")
    for (i = 1; i <= n; i++)
        if (count[names[i]] > 0) add(names[i] " " count[names[i]])
    if (text["slot"]) add("slot " text["slot"])
}

function add_systems(   i) {
    for (i = 1; i <= apart; i++)
        if (!is_converted[systems_apart[i]])
            add("system " systems_apart[i] " is in messages " message[i] " alone, which are not converted")
}

function add_signals(   i, kind) {
    # off the times of the file, as by a clock of its own
    for (i = 1; i <= signals_heard; i++)
        if (cells_heard[i] >= 1000 && !values["now", heard[i], 1])
            add("signal " heard[i] " has no values, and " cells_heard[i] " cells in the logs")
    for (i = 1; i <= signals_before; i++)
        if (!add_fewer(signals[i], 1))
            for (kind = 2; kind <= 5; kind++) add_fewer(signals[i], kind)
}

# Adds that less than half of the values of a kind is there, and returns whether it is so.
function add_fewer(signal, kind,   is, was) {
    is = values["now", signal, kind] + 0
    was = values["before", signal, kind]
    if (2 * is >= was || (kind > 1 && was < 100)) return 0
    add("signal " signal " has " is " " kinds[kind] ", " was " on " before)
    return 1
}
