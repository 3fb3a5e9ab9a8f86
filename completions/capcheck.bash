# Completion of capcheck and capdiag for bash: the commands, the options of each, and files.

# The options of a command; capcheck takes them in this order.
_capcheck_options() {
    case $1 in
        'capcheck explain') echo '--memory --tag' ;;
        'capcheck judge') echo '--origins' ;;
        'capdiag why') echo '--origins --freed --owned --owners --context --json --progress' ;;
        'capdiag heap') echo '--report --why --context --json --progress' ;;
        'capdiag run') echo '--freed --owned --owners --why --context --json --progress' ;;
    esac
}

_capcheck() {
    local program=${1##*/} word=$2 command=${COMP_WORDS[1]} offered='' option
    if [ "$COMP_CWORD" = 1 ]; then
        case $program in
            capdiag) offered='why heap run --help --version' ;;
            *) offered='explain round judge vectors' ;;
        esac
        mapfile -t COMPREPLY < <(compgen -W "$offered" -- "$word")
        return
    fi
    if [ "$program ${COMP_WORDS[COMP_CWORD-1]}" = 'capdiag --freed' ] && [ "$command" != heap ]; then
        mapfile -t COMPREPLY < <(compgen -W 'held used both' -- "$word")
        return
    fi
    # A number of lines is not offered.
    if [ "$program ${COMP_WORDS[COMP_CWORD-1]}" = 'capdiag --context' ]; then
        COMPREPLY=()
        return
    fi
    # An option that was given is left out, in capcheck with those that come before it, and after -- each is.
    for option in $(_capcheck_options "$program $command"); do
        case "$program ${COMP_WORDS[*]:2:COMP_CWORD-2} " in
            *' -- '*) ;;
            capdiag*" $option "*) ;;
            *" $option "*) offered='' ;;
            *) offered="$offered $option" ;;
        esac
    done
    [ "$program$COMP_CWORD" != capdiag2 ] || offered="$offered --help"
    mapfile -t COMPREPLY < <(compgen -W "$offered" -- "$word")
    case "$program $command $word" in
        *' -'*) ;;
        'capcheck judge '* | 'capcheck vectors '* | 'capdiag why '* | 'capdiag heap '* | 'capdiag run '*)
            mapfile -t -O "${#COMPREPLY[@]}" COMPREPLY < <(compgen -f -- "$word") ;;
    esac
}
complete -o filenames -F _capcheck capcheck capdiag
