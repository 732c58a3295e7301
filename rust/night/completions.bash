# Completions of night for bash: ./install puts them where bash-completion looks for them, and
# `. completions.bash` takes them at once.

_night() {
    local word=${COMP_WORDS[COMP_CWORD]} before=${COMP_WORDS[COMP_CWORD - 1]} command='' at
    # `--journal=FILE` comes as three words.
    [ "$word" = = ] && word=''
    [ "$before" = = ] && before=${COMP_WORDS[COMP_CWORD - 2]}
    for ((at = 1; at < COMP_CWORD; at++)); do
        case ${COMP_WORDS[at]} in
            run | who | log | board | show | check | listing | deck | cards | desk) command=${COMP_WORDS[at]} && break ;;
        esac
    done
    case $before in
        --journal | --shift | --deck) mapfile -t COMPREPLY < <(compgen -f -- "$word") && return ;;
        --programs | --sheets) mapfile -t COMPREPLY < <(compgen -d -- "$word") && return ;;
        --at | --from | --to | --job | --sheet) return ;;
    esac
    local options='--help --version'
    case $command in
        run) options+=' --journal --new --resume --shift --programs' ;;
        who) options+=' --journal --job --at --json' ;;
        log) options+=' --journal --from --to --json' ;;
        board) options+=' --journal --at --json --shift --programs' ;;
        show) options+=' --journal --from --to --sheet --sheets' ;;
        check) options+=' --deck --journal --shift --programs' ;;
        listing | deck | cards | desk) options+=' --programs' ;;
    esac
    case $command/$word in
        */-*) mapfile -t COMPREPLY < <(compgen -W "$options" -- "$word") ;;
        /*) mapfile -t COMPREPLY < <(compgen -W 'run who log board show check listing deck cards desk' -- "$word") ;;
        run/* | check/* | listing/* | deck/* | cards/* | desk/*) mapfile -t COMPREPLY < <(compgen -f -- "$word") ;;
    esac
}
complete -o filenames -F _night night
