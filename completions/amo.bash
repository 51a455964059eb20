# Completions for bash of amo amo_show amo_jobs amo_share amo_worker.
# Written by tools/man from the help texts of the programs.
# Source this file, or install it as share/bash-completion/completions/amo, with a link to it from
# the name of each other program.

# Prints the commands and the options of a call, by its program and command.
_amo_words() {
    case $1 in
        'amo')
            echo 'check,replay,run,explore,stops,-h,--help,--version' ;;
        'amo check' | 'amo replay' | 'amo run' | 'amo explore' | 'amo stops' | 'amo_show explain' | 'amo_show trace' | 'amo_show picture' | 'amo_show worst' | 'amo_show all')
            echo 'word' ;;
        'amo_show')
            echo 'explain,trace,picture,worst,all,judge,-h,--help,--version' ;;
        'amo_show judge')
            echo '--run' ;;
        'amo_jobs')
            echo 'crew,work,status,doubts,answer,again,forget,report,watch,-h,--help,--version' ;;
        'amo_jobs crew')
            echo '-h,--help,--run,--worker-program,--file-system,--workers,--beta,--untouched,--timeout,--grace,--linger,--halt,--results,--command-changed,--new-run,--may-leave,--metrics,--events,--notify' ;;
        'amo_jobs work')
            echo '-h,--help,--run,--worker-program,--file-system,--worker,--workers,--beta,--untouched,--timeout,--grace,--linger,--halt,--results,--command-changed,--new-run,--may-leave' ;;
        'amo_jobs status')
            echo '-h,--help,--run,--worker-program,--file-system,--json,--lines,--damaged' ;;
        'amo_jobs doubts' | 'amo_jobs report')
            echo '-h,--help,--run,--worker-program,--file-system,--json' ;;
        'amo_jobs answer')
            echo '-h,--help,--run,--worker-program,--file-system,--from,--quiet,--now' ;;
        'amo_jobs again' | 'amo_jobs watch' | 'amo_share status')
            echo '-h,--help,--run,--worker-program,--file-system' ;;
        'amo_jobs forget')
            echo '-h,--help,--run,--worker-program,--file-system,--force' ;;
        'amo_share')
            echo 'status,-h,--help,--version,--name,--claim,--chunk,--workers,--crew,--metrics,--moved,--machine-id,--run,--worker-program,--file-system' ;;
        'amo_worker')
            echo 'door,work,lines,status,doubts,answer,again,-h,--help' ;;
        'amo_worker door')
            echo '--file-system,--id,--boot-id,--into,--workers,--beta,-h,--help' ;;
        'amo_worker work')
            echo '--file-system,--id,--boot-id,--workers,--beta,-h,--help' ;;
        'amo_worker lines')
            echo '--protocol,-h,--help' ;;
        'amo_worker status')
            echo '--file-system,--id,--boot-id,--json,--lines,--damaged,--follow,--once,-h,--help' ;;
        'amo_worker doubts')
            echo '--file-system,--id,--boot-id,--json,-h,--help' ;;
        'amo_worker answer')
            echo '--file-system,--id,--boot-id,--quiet,--now,--from,-h,--help' ;;
        'amo_worker again')
            echo '--file-system,--id,--boot-id,-h,--help' ;;
    esac
}

# Prints what the value of an option is, by the program and the option: file, folder, program, word,
# or the words themselves. Prints nothing if the option takes no value.
_amo_value() {
    case $1 in
        'amo_jobs --run' | 'amo_jobs --results' | 'amo_share --run')
            echo 'folder' ;;
        'amo_jobs --worker-program' | 'amo_jobs --metrics' | 'amo_jobs --events' | 'amo_jobs --from' | 'amo_share --metrics' | 'amo_share --machine-id' | 'amo_share --worker-program' | 'amo_worker --boot-id' | 'amo_worker --from')
            echo 'file' ;;
        'amo_jobs --file-system' | 'amo_jobs --workers' | 'amo_jobs --beta' | 'amo_jobs --untouched' | 'amo_jobs --timeout' | 'amo_jobs --grace' | 'amo_jobs --linger' | 'amo_jobs --halt' | 'amo_jobs --new-run' | 'amo_jobs --may-leave' | 'amo_jobs --worker' | 'amo_jobs --quiet' | 'amo_share --name' | 'amo_share --chunk' | 'amo_share --workers' | 'amo_share --crew' | 'amo_share --file-system' | 'amo_worker --file-system' | 'amo_worker --id' | 'amo_worker --workers' | 'amo_worker --beta' | 'amo_worker --protocol' | 'amo_worker --quiet')
            echo 'word' ;;
        'amo_jobs --notify' | 'amo_share --claim')
            echo 'program' ;;
        'amo_jobs --lines' | 'amo_worker --lines')
            echo 'done,failed,doubt,untouched,running,open' ;;
    esac
}

# Prints what each argument of a call is, by its program and command, in the same way.
_amo_places() {
    case $1 in
        'amo explore')
            echo 'word word word' ;;
        'amo stops')
            echo 'word' ;;
        'amo_jobs crew' | 'amo_jobs work' | 'amo_jobs status' | 'amo_jobs doubts' | 'amo_jobs again' | 'amo_jobs forget' | 'amo_jobs report' | 'amo_jobs watch' | 'amo_share')
            echo 'file' ;;
        'amo_jobs answer')
            echo 'file word word done,not-done done,not-done' ;;
        'amo_worker door')
            echo 'folder file' ;;
        'amo_worker work')
            echo 'folder word file' ;;
        'amo_worker lines')
            echo 'word word word word' ;;
        'amo_worker status' | 'amo_worker doubts' | 'amo_worker again')
            echo 'folder' ;;
        'amo_worker answer')
            echo 'folder word word word done,not-done' ;;
    esac
}

# Adds to COMPREPLY what is of these kinds and begins with a text.
_amo_offer() {
    local kind found
    for kind in ${1//,/ }; do
        case $kind in
            word) found= ;;
            file) found=$(compgen -f -- "$2") ;;
            folder) found=$(compgen -d -- "$2") ;;
            program) found=$(compgen -c -- "$2"; compgen -f -- "$2") ;;
            *) found=$(compgen -W "$kind" -- "$2") ;;
        esac
        case $kind in file | folder | program) compopt -o filenames 2> /dev/null ;; esac
        [ -z "$found" ] || mapfile -t -O "${#COMPREPLY[@]}" COMPREPLY <<< "$found"
    done
}

# Reads the words before the word that is completed. Sets `call` to the program with its command,
# and `option` to an option whose value is due. Sets `place` to the number of arguments, and `after`
# to the number of words from -- on.
_amo_read() {
    local it at program=$call
    for ((at = 1; at < COMP_CWORD; at++)); do
        it=${COMP_WORDS[at]}
        if [ "$it" = -- ] && [[ " amo_jobs amo_share " = *" $program "* ]]; then
            after=$((COMP_CWORD - at))
            return
        elif [ "$it" != = ]; then # bash splits --run=DIR there
            _amo_read_word
        fi
    done
}

# Reads one of these words.
_amo_read_word() {
    if [ -n "$option" ]; then
        option=''
    elif [[ $it = -* ]]; then
        [ -z "$(_amo_value "$program $it")" ] || option=$it
    elif [ "$call" = "$program" ] && [ -n "$(_amo_words "$program $it")" ]; then
        call="$program $it"
    else
        place=$((place + 1))
    fi
}

# Completes the word COMP_CWORD of COMP_WORDS.
_amo() {
    local call=${1##*/} current=$2 option='' place=0 after=0
    local -a kinds
    COMPREPLY=()
    _amo_read
    if [ "$after" -gt 0 ]; then
        kinds=([1]='program')
        _amo_offer "${kinds[after]-file}" "$current"
    elif [ -n "$option" ]; then
        _amo_offer "$(_amo_value "${call%% *} $option")" "${current#=}"
    else
        read -r -a kinds <<< "$(_amo_places "$call")"
        [[ $current = -* ]] || _amo_offer "${kinds[place]-}" "$current"
        [[ $current != -* && $call = *' '* && ${#COMPREPLY[@]} -gt 0 ]] ||
            _amo_offer "$(_amo_words "$call")" "$current"
    fi
}

complete -F _amo amo amo_show amo_jobs amo_share amo_worker
