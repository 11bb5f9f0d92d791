# Completes the command line of pegi in fish. scripts/build/completions.py wrote this file.

# Prints the names of the rules of the grammar on the line, if it is there.
function __pegi_rules
    set -l words (commandline -op)
    set -l at 2
    while test $at -le (count $words)
        switch $words[$at]
            case -m --mode -s --rule -l --limit -b --budget -f --format
                set at (math $at + 1)
            case '-*'
            case '*'
                set -l file (string replace -r '^~/' "$HOME/" -- $words[$at])
                if test -f "$file"
                    set -l program $words[1]
                    set -l text (command $program -m print "$file" 2> /dev/null)
                    string match -rg '^([A-Za-z_][A-Za-z0-9_-]*) <- ' -- $text
                end
        end
        set at (math $at + 1)
    end
end

complete -c pegi -s m -l mode -x -a 'run check print' -d 'Choose what to do with the grammar'
complete -c pegi -s s -l rule -x -a '(__pegi_rules)' -d 'Start from this rule [default: the first rule]'
complete -c pegi -s l -l limit -x -d 'Look at no more than N bytes, or Nk, NM, in a unit, from 1 to 16777216'
complete -c pegi -s b -l budget -x -d 'Print no more than N bytes in a unit, from 1 to 4294967295 [default: 4294967295, any number]'
complete -c pegi -s 1 -l whole -d 'Take the input as one unit, up to its end'
complete -c pegi -l line-buffered -d 'Run units at line feeds, before more input is read'
complete -c pegi -s r -l raw -d 'Print actions verbatim'
complete -c pegi -l escapes -d 'Replace escapes in actions by their bytes'
complete -c pegi -s x -l explain -d 'Explain messages in more lines'
complete -c pegi -s f -l format -x -a 'text gcc json' -d 'Choose the form of messages'
complete -c pegi -s h -l help -f -d 'Print this help'
complete -c pegi -l version -f -d 'Print the version'
