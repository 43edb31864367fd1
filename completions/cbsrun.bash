# What bash completes of the words of cbsrun: commands, options, formats, and files.
#
# It is installed as share/bash-completion/completions/cbsrun. To try it: source completions/cbsrun.bash
# shellcheck shell=bash

# Offers those of these words that begin with $word.
_cbsrun_words() {
    local IFS=$'\n'
    # shellcheck disable=SC2207
    COMPREPLY=($(compgen -W "$*" -- "$word"))
}

# Offers folders, and files whose names end in .toml; if there is none, all files.
_cbsrun_files() {
    local IFS=$'\n'
    compopt -o filenames 2>/dev/null
    # shellcheck disable=SC2207
    COMPREPLY=($(compgen -d -- "$word") $(compgen -f -X '!*.toml' -- "$word"))
    # shellcheck disable=SC2207
    ((${#COMPREPLY[@]} > 0)) || COMPREPLY=($(compgen -f -- "$word"))
}

_cbsrun() {
    local word=${COMP_WORDS[COMP_CWORD]} before=${COMP_WORDS[COMP_CWORD - 1]} command='' options=yes i
    # bash takes a = for a word of its own.
    if [[ $word == = ]]; then
        word=''
    elif [[ $before == = ]]; then
        before=${COMP_WORDS[COMP_CWORD - 2]}
    fi
    for ((i = 1; i < COMP_CWORD; i++)); do
        case ${COMP_WORDS[i]} in
            --) options=no ;;
            check | size | simulate | replay | serve | help) command=${command:-${COMP_WORDS[i]}} ;;
        esac
    done
    COMPREPLY=()
    case $options$before in
        yes--as)
            case $command in
                check) _cbsrun_words report json ;;
                simulate) _cbsrun_words report json text svg trace lines csv record tape ;;
                *) _cbsrun_words lines report json text svg trace record tape ;;
            esac
            return
            ;;
        yes--from | yes--to | yes--server | yes--seed | yes--until | yes--seeds) return ;;
    esac
    case $command,$options,$word in
        ,yes,-*) _cbsrun_words -h --help -V --version ;;
        ,*) _cbsrun_words check size simulate replay serve help ;;
        help,*) _cbsrun_words check size simulate replay serve ;;
        check,yes,-*) _cbsrun_words --as --strict -h --help ;;
        size,yes,-*) _cbsrun_words --all -h --help ;;
        simulate,yes,-*) _cbsrun_words --as --from --to --server --seed --until --seeds --strict -h --help ;;
        replay,yes,-*) _cbsrun_words --as --from --to --server -h --help ;;
        *,yes,-*) _cbsrun_words -h --help ;;
        *) _cbsrun_files ;;
    esac
}

complete -F _cbsrun cbsrun
