# Completion of globs for bash. To try it: source packaging/globs.bash
# With bash-completion, a word such as a:b stays whole; without it, bash splits the word.

_globs() {
    local cur words=("${COMP_WORDS[@]}") cword=$COMP_CWORD
    if declare -F _get_comp_words_by_ref > /dev/null; then
        _get_comp_words_by_ref -n ':=<>' cur words cword
    fi
    cur=${words[cword]}
    COMPREPLY=()
    if ((cword == 1)); then
        mapfile -t COMPREPLY < <(compgen -W 'match captures query walk' -- "$cur")
    elif [[ ${words[1]} == walk ]]; then
        _globs_walk
    fi
}

# Completes the words after `walk`: START, EXPR, and then pairs of an option and its argument.
_globs_walk() {
    if ((cword == 2)); then
        compopt -o filenames 2> /dev/null
        mapfile -t COMPREPLY < <(compgen -d -- "$cur")
    elif ((cword > 3 && cword % 2 == 0)); then
        local at option given=' ' left='not'
        for ((at = 4; at < ${#words[@]}; at += 2)); do
            if ((at != cword)); then given+="${words[at]} "; fi
        done
        for option in min max ignore; do
            if [[ $given != *" $option "* ]]; then left+=" $option"; fi
        done
        mapfile -t COMPREPLY < <(compgen -W "$left" -- "$cur")
    elif ((cword > 4)) && [[ ${words[cword - 1]} == ignore ]]; then
        compopt -o filenames 2> /dev/null
        mapfile -t COMPREPLY < <(compgen -f -- "$cur")
    fi
}

complete -F _globs globs
