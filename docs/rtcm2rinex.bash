# Completion of rtcm2rinex for bash: commands, options and their values as the program's own help lists them.
_rtcm2rinex() {
    local word=${COMP_WORDS[COMP_CWORD]} last=${COMP_WORDS[COMP_CWORD - 1]} command= kinds=all
    # the name of a file follows a redirection, and is left to the default
    local operator='^[0-9]*[<>&]'
    [[ ! $word =~ $operator && ! $last =~ $operator ]] || return 0
    # bash splits a word at `=`, which is a word of its own
    if [[ $word == = ]]; then
        word=
    elif [[ $last == = ]]; then
        last=${COMP_WORDS[COMP_CWORD - 2]}
    fi
    ((COMP_CWORD == 1)) || command=${COMP_WORDS[1]}
    # the only argument of help is a command
    [[ $command != help ]] || command= kinds=commands
    local words=$("$1" $command --help 2>&1 | awk -v last="$last" -v kinds="$kinds" '
        /^[A-Z]/ { part = $1 }
        /^  [a-z]/ && part == "Commands:" { print $1 }
        /^  (    )?-/ && kinds == "all" {
            option = $1 ~ /,$/ ? $2 : $1
            options = options " " option
            value = $0 ~ /</
        }
        option == last && value { has_value = 1 }
        option == last && sub(/.*\[possible values: /, "") { sub(/\].*/, ""); gsub(/, /, " "); print }
        END { if (!has_value) print options }')
    COMPREPLY=($(compgen -W "$words" -- "$word"))
}
complete -o default -F _rtcm2rinex rtcm2rinex
