# Completes the words of dualfond in bash: commands, the launcher's options, and files where a command reads one.
# To use it, source this file, or put it in a folder of bash-completion under the name dualfond.

# What a command has at each position after its name: F is a file, N a number of states, T one of at most a thousand, and - something
# to type.
_dualfond_positions() {
    case $1 in
        plan | best) echo F F F N ;;
        succ) echo F F - ;;
        run) echo F F F F F ;;
        simulate) echo F F F F - - ;;
        check | rate | migrate) echo F F F F ;;
        duel) echo F F F F - ;;
        explain) echo F F F F T ;;
        graph) echo F F F F N ;;
        help) echo C ;;
        --install) echo D ;;
    esac
}

_dualfond() {
    local current=${COMP_WORDS[COMP_CWORD]}
    local commands="plan succ run simulate duel check best rate explain graph migrate demo"
    local first=1 position kind
    COMPREPLY=()
    [ "${COMP_WORDS[1]}" = --progress ] && first=2
    position=$((COMP_CWORD - first))
    if [ "$COMP_CWORD" -eq 1 ]; then
        kind=O
    elif [ "$position" -eq 0 ]; then
        kind=C
    else
        kind=$(_dualfond_positions "${COMP_WORDS[first]}" | cut -d ' ' -f "$position")
    fi
    # Readline completes files by itself if nothing is offered here, unless it is told not to.
    [ "$kind" = F ] || compopt +o default 2>/dev/null
    case $kind$current in
        O-*) COMPREPLY=($(compgen -W "--help -h --version --prove --install --progress" -- "$current")) ;;
        O*) COMPREPLY=($(compgen -W "$commands help" -- "$current")) ;;
        C*) COMPREPLY=($(compgen -W "$commands" -- "$current")) ;;
        N*) COMPREPLY=($(compgen -W 1000000 -- "$current")) ;;
        T*) COMPREPLY=($(compgen -W 1000 -- "$current")) ;;
        D*) compopt -o dirnames 2>/dev/null ;;
    esac
}

complete -o default -F _dualfond dualfond
