# Completion of globs_explain for fish. To try it: source packaging/globs_explain.fish

# Succeeds if an option may come next.
function __globs_explain_takes_option
    test (count (commandline -opc)) -eq 1
end

# Succeeds if a path or the file of an ignore list or of rules comes next.
function __globs_explain_takes_file
    set -l words (commandline -opc)
    switch "$words[2]"
        case --dot --overlap --difference --help --version
            false
        case --ignored
            true
        case --compare
            contains (count $words) 2 3
        case '--'
            test (count $words) -eq 3
        case '*'
            test (count $words) -eq 2
    end
end

complete -c globs_explain -f
complete -c globs_explain -n __globs_explain_takes_option -l dot -d 'Write the tokens of an expression for Graphviz'
complete -c globs_explain -n __globs_explain_takes_option -l overlap -d 'Find a path that two expressions match'
complete -c globs_explain -n __globs_explain_takes_option -l difference -d 'Find a path that only the first one matches'
complete -c globs_explain -n __globs_explain_takes_option -l conflicts -d 'Find each two rules of a file that match one path'
complete -c globs_explain -n __globs_explain_takes_option -l idle -d 'List the lines of an ignore file that decide nothing'
complete -c globs_explain -n __globs_explain_takes_option -l tidy -d 'Write an ignore file without the lines that decide nothing'
complete -c globs_explain -n __globs_explain_takes_option -l ignored -d 'Show the line of an ignore file that decides about each path'
complete -c globs_explain -n __globs_explain_takes_option -l compare -d 'Find a path that only one of two ignore files ignores'
complete -c globs_explain -n __globs_explain_takes_option -l help -d 'Print the usage'
complete -c globs_explain -n __globs_explain_takes_option -l version -d 'Print the version'
complete -c globs_explain -n __globs_explain_takes_file -F
