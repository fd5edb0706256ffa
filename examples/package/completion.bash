# Completion of whx12 for bash, made of its help.
_whx12() {
    local word=${COMP_WORDS[COMP_CWORD]} options="" commands="@COMMANDS@" command="" at
    COMPREPLY=()
    for ((at = 1; at < COMP_CWORD; at++)); do
        if [[ ${COMP_WORDS[at]} != -* ]]; then
            command=${COMP_WORDS[at]}
            break
        fi
    done
    case $command in
    '')
        mapfile -t COMPREPLY < <(compgen -W "$commands help --help --version --explain" -- "$word")
        return
        ;;
    help)
        if ((COMP_CWORD == at + 1)); then mapfile -t COMPREPLY < <(compgen -W "$commands" -- "$word"); fi
        return
        ;;
# OPTIONS
    esac
    if [[ $word == -* ]]; then
        mapfile -t COMPREPLY < <(compgen -W "$options --explain" -- "$word")
    else
        mapfile -t COMPREPLY < <(compgen -f -- "$word")
    fi
}
complete -o filenames -F _whx12 whx12
