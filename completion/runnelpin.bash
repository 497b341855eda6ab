# Bash completion for runnelpin: source this file in ~/.bashrc, or install it as
# /usr/share/bash-completion/completions/runnelpin.

# The options of a verb; of none, those that stand alone.
_runnelpin_options() { # [VERB]
    case $1 in
    pack) echo -o --hash --block --signature --json --help ;;
    header | copy) echo -o --json --help ;;
    signature) echo --header -o --signature --json --help ;;
    open) echo --header -o --signature --partial --json --help ;;
    load) echo --header --map -o --signature --cpuid --mode --memory --partial --json --help ;;
    run) echo --map -o --cpuid --mode --memory --partial --json --help ;;
    show) echo --map --json --help ;;
    *) echo --help --version ;;
    esac
}

# The words of a list that begin as the last argument does, each behind the prefix.
_runnelpin_offer() { # PREFIX WORDS BEGINNING
    mapfile -t COMPREPLY < <(compgen -P "$1" -W "$2" -- "$3")
}

# The values of an option. Where it offers none, Bash offers files.
_runnelpin_values() { # OPTION BEGINNING
    local files hashes='sha256 sha384 sha512'
    case $1 in
    --hash)
        [[ $2 == *,* ]] && hashes+=' none' # which can't be the first
        _runnelpin_offer "${2%"${2##*,}"}" "$hashes" "${2##*,}"
        ;;
    --mode) _runnelpin_offer '' '32 64' "$2" ;;
    --cpuid)
        _runnelpin_offer '' host "$2"
        mapfile -t files < <(compgen -f -- "$2")
        [[ ${COMPREPLY[*]} ]] && COMPREPLY+=("${files[@]}")
        compopt -o filenames 2>/dev/null
        ;;
    --block | --signature) compopt +o default 2>/dev/null ;; # a number
    esac
}

_runnelpin() {
    local verbs='pack header signature open load run show copy' word=${COMP_WORDS[COMP_CWORD]}
    local before=${COMP_WORDS[COMP_CWORD - 1]} each verb=''
    COMPREPLY=()
    for each in "${COMP_WORDS[@]:1:COMP_CWORD-1}"; do
        [[ $each == -- ]] && return # files from here on
        [[ ! $verb && " $verbs help " == *" $each "* ]] && verb=$each
    done
    # Bash takes --option=value apart at the =.
    if [[ $word == = ]]; then
        word=''
    elif [[ $before == = ]]; then
        before=${COMP_WORDS[COMP_CWORD - 2]}
    fi
    case $before in
    -o | --header | --map | --hash | --block | --signature | --cpuid | --mode | --memory)
        _runnelpin_values "$before" "$word"
        return
        ;;
    esac
    if [[ $word == -* ]]; then
        _runnelpin_offer '' "$(_runnelpin_options "$verb")" "$word"
    elif [[ ! $verb ]]; then
        _runnelpin_offer '' "$verbs help" "$word"
    elif [[ $verb == help ]]; then
        _runnelpin_offer '' "$verbs" "$word"
    fi
}

complete -o default -F _runnelpin runnelpin
