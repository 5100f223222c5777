# Completion of globs for fish. To try it: source packaging/globs.fish

# Prints the words before the cursor, without the program.
function __globs_words
    set -l words (commandline -opc)
    test (count $words) -gt 1; and printf '%s\n' $words[2..-1]
end

# Succeeds if the option NAME of a walk may come next: `not` may come again, and others only once.
function __globs_takes --argument-names name
    set -l words (__globs_words)
    test "$words[1]" = walk; and test (count $words) -ge 3; and test (math (count $words) % 2) -eq 1; or return 1
    test $name = not; and return 0
    set -l at 4
    while test $at -le (count $words)
        test "$words[$at]" = $name; and return 1
        set at (math $at + 2)
    end
end

# Succeeds if the start of a walk comes next.
function __globs_takes_start
    set -l words (__globs_words)
    test (count $words) -eq 1; and test "$words[1]" = walk
end

# Succeeds if the file of an ignore list comes next.
function __globs_takes_file
    set -l words (__globs_words)
    test "$words[1]" = walk; and test (count $words) -ge 4; and test (math (count $words) % 2) -eq 0
    and test "$words[-1]" = ignore
end

complete -c globs -f
complete -c globs -n 'test (count (__globs_words)) -eq 0' -a match -d 'Write the lines that a glob matches'
complete -c globs -n 'test (count (__globs_words)) -eq 0' -a captures -d 'Write these lines with their captures'
complete -c globs -n 'test (count (__globs_words)) -eq 0' -a query -d 'Write facts about a glob'
complete -c globs -n 'test (count (__globs_words)) -eq 0' -a walk -d 'Write the paths in a folder that a glob matches'
complete -c globs -n __globs_takes_start -a '(__fish_complete_directories)'
complete -c globs -n '__globs_takes not' -a not -d 'Exclude what an expression matches'
complete -c globs -n '__globs_takes min' -a min -d 'Exclude paths with fewer names'
complete -c globs -n '__globs_takes max' -a max -d 'Exclude paths with more names'
complete -c globs -n '__globs_takes ignore' -a ignore -d 'Exclude what the lines of a file ignore'
complete -c globs -n __globs_takes_file -F
