# Completion for bash: the words of normd and of its tools, their options, and the node numbers of a profile.

# _normd_nodes PROFILE: the ids of the profile's receivers, which follow the sender's.
_normd_nodes() {
    local sender receivers
    sender=$(sed -n 's/^sender *= *\([0-9][0-9]*\).*/\1/p' "$1" 2>/dev/null | head -n 1)
    receivers=$(sed -n 's/^receivers *= *\([0-9][0-9]*\).*/\1/p' "$1" 2>/dev/null | head -n 1)
    seq $((${sender:-1} + 1)) $((${sender:-1} + ${receivers:-1}))
}

# _normd_options TOOL: the options that --help of the tool shows.
_normd_options() {
    "$1" --help 2>/dev/null | grep -o -e '--[a-z][a-z-]*' | sort -u
}

_normd() {
    local word=${COMP_WORDS[COMP_CWORD]} command=${COMP_WORDS[1]} before=${COMP_WORDS[COMP_CWORD - 1]} options=
    case ${COMP_WORDS[0]##*/} in
        normd-*)
            options=$(_normd_options "${COMP_WORDS[0]}")
            [ "${COMP_WORDS[0]##*/}" != normd-receive ] || command=recv
            ;;
        *)
            if [ "$COMP_CWORD" -eq 1 ]; then
                mapfile -t COMPREPLY < <(compgen -W 'session show generate send recv hub gather relay mirror' -- "$word")
                return
            fi
            case $command in
                session) options='--chance --turns --tail' ;;
                send) options='--instance --group' ;;
                recv) options='--group' ;;
                relay) options='--instance' ;;
            esac
            ;;
    esac
    if [[ $word == -* ]]; then
        mapfile -t COMPREPLY < <(compgen -W "$options" -- "$word")
    elif [[ $before == *.toml ]] && [[ $command == recv || $command == gather || $command == relay ]]; then
        mapfile -t COMPREPLY < <(compgen -W "$(_normd_nodes "$before")" -- "$word")
    else
        mapfile -t COMPREPLY < <(compgen -f -- "$word")
    fi
}

complete -o filenames -F _normd normd normd-send normd-receive normd-profile normd-journal normd-pcap normd-bridge normd-cast
