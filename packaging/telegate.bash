# Completion of telegate for bash: source it, or put it into the completions folder.
_telegate() {
    local word=${COMP_WORDS[COMP_CWORD]} command=${COMP_WORDS[1]}
    if [ "$COMP_CWORD" -eq 1 ]; then
        COMPREPLY=($(compgen -W "show101 show104 check replay sim audit run status state capture stations centre help --help --version" -- "$word"))
        return
    fi
    case $command in
        check) COMPREPLY=($(compgen -W "--live --explain --site --help" -- "$word")) ;;
        replay) COMPREPLY=($(compgen -W "--left --counts --words --color --help" -- "$word")) ;;
        run) COMPREPLY=($(compgen -W "--redial --log --record --state --state-or-stop --allow --status --site --log-severity --help" -- "$word")) ;;
        show101 | show104 | stations) COMPREPLY=($(compgen -W "--words --help" -- "$word")) ;;
        sim) COMPREPLY=($(compgen -W "--words --color --help" -- "$word")) ;;
        audit | capture) COMPREPLY=($(compgen -W "--help" -- "$word")) ;;
        state) COMPREPLY=($(compgen -W "--help" -- "$word")) ;;
        centre) COMPREPLY=($(compgen -W "--tagged --json --wait --help" -- "$word")) ;;
        status) COMPREPLY=($(compgen -W "--json --help" -- "$word")) ;;
        help) COMPREPLY=($(compgen -W "show101 show104 check replay sim audit run status state capture stations centre" -- "$word")) ;;
    esac
    case $command,$word in
        *,-*) ;;
        check,* | replay,* | sim,* | audit,* | run,* | state,* | capture,* | stations,* | centre,*) COMPREPLY=($(compgen -f -- "$word")) ;;
    esac
}
complete -o filenames -F _telegate telegate
