# Completion of chill for bash: source this file. Made by tools/around of tools/words.txt.
_chill() {
    local word=${COMP_WORDS[COMP_CWORD]} before=${COMP_WORDS[COMP_CWORD - 1]} options=
    if [ "$COMP_CWORD" -eq 1 ]; then
        COMPREPLY=($(compgen -W 'run check list format make record replay' -- "$word"))
        return
    fi
    case $before in --workers | --units) return ;; esac
    case ${COMP_WORDS[1]} in
    run) options='--workers --units --watch' ;;
    record) options='--workers --units' ;;
    replay) options='--units' ;;
    esac
    case $word in -?*) COMPREPLY=($(compgen -W "$options" -- "$word")) && return ;; esac
    case ${COMP_WORDS[1]} in
    run | check | list | format | record | replay) compopt -o filenames 2>/dev/null; COMPREPLY=($(compgen -f -- "$word")) ;;
    esac
}
complete -F _chill chill ./chill
