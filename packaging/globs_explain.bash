# Completion of globs_explain for bash. To try it: source packaging/globs_explain.bash
# With bash-completion, a word such as a:b stays whole; without it, bash splits the word.

_globs_explain() {
    local cur words=("${COMP_WORDS[@]}") cword=$COMP_CWORD
    local options='--dot --overlap --difference --conflicts --idle --tidy --ignored --compare --help --version'
    if declare -F _get_comp_words_by_ref > /dev/null; then
        _get_comp_words_by_ref -n ':=<>' cur words cword
    fi
    cur=${words[cword]}
    COMPREPLY=()
    if ((cword == 1)) && [[ $cur == -* ]]; then
        mapfile -t COMPREPLY < <(compgen -W "$options" -- "$cur")
    elif _globs_explain_takes_file; then
        compopt -o filenames 2> /dev/null
        mapfile -t COMPREPLY < <(compgen -f -- "$cur")
    fi
}

# Succeeds if the word to complete is a path or the file of an ignore list or of rules.
_globs_explain_takes_file() {
    case ${words[1]} in
        --dot | --overlap | --difference | --help | --version) false ;;
        --ignored) true ;;
        --compare) ((cword == 2 || cword == 3)) ;;
        --) ((cword == 3)) ;;
        *) ((cword == 2)) ;;
    esac
}

complete -F _globs_explain globs_explain
