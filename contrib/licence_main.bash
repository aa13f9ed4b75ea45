# Completion for bash of licence_main, and of licence_lint and licence_client where they are: `. licence_main.bash`.
# Where nothing is offered here, bash completes the names of files.

_licence_main() {
    local last
    COMPREPLY=()
    if ((COMP_CWORD == 1)); then
        mapfile -t COMPREPLY < <(compgen -W "serve check replay report audit usage trial-replay trial-threads" -- "${COMP_WORDS[1]}")
        compopt +o default
        return
    fi
    case ${COMP_WORDS[1]} in
        serve) last=8 ;;
        check) last=3 ;;
        replay | report | audit | usage) last=7 ;;
        *) last=0 ;;
    esac
    # The fifth word of serve is a number of sessions, the trials have numbers alone, and behind the last file comes nothing.
    if ((COMP_CWORD > last)) || [[ ${COMP_WORDS[1]}:$COMP_CWORD == serve:5 ]]; then
        compopt +o default
    fi
}

# The options of a program, as its --help has them.
_licence_options() {
    local options word=${COMP_WORDS[COMP_CWORD]}
    COMPREPLY=()
    if [[ $word == -* ]]; then
        options=$("$1" --help 2>/dev/null | grep -oE -e '--[a-z-]+')
        mapfile -t COMPREPLY < <(compgen -W "$options" -- "$word")
    fi
}

# The options of licence_client, and behind the socket its commands; behind a command come no files. Each option but --wait
# has a value, and bash takes --user=ann for three words.
_licence_client() {
    local at word count=0 named=false
    _licence_options "$1"
    for ((at = 1; at < COMP_CWORD; at++)); do
        word=${COMP_WORDS[at]}
        if [[ $word == = ]]; then
            named=true
        elif $named; then
            named=false
        elif [[ $word == --* ]]; then
            [[ $word == --wait ]] || named=true
        else
            ((count += 1))
        fi
    done
    if $named || ((count > 0)); then
        compopt +o default
    fi
    if ! $named && ((count == 1)) && [[ ${COMP_WORDS[COMP_CWORD]} != -* ]]; then
        mapfile -t COMPREPLY < <(compgen -W "ask status hold reread shutdown" -- "${COMP_WORDS[COMP_CWORD]}")
    fi
}

complete -o default -F _licence_main licence_main
complete -o default -F _licence_options licence_lint
complete -o default -F _licence_client licence_client
