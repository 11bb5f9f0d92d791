# Completes the command line of abnfi in fish. scripts/build/completions.py wrote this file.

# Prints the names of the rules of the grammar on the line, if it is there.
function __abnfi_rules
    set -l words (commandline -op)
    set -l at 2
    while test $at -le (count $words)
        switch $words[$at]
            case -m --mode -s --rule -l --limit -u --letters -b --budget -p --print -f --format
                set at (math $at + 1)
            case '-*'
            case '*'
                set -l file (string replace -r '^~/' "$HOME/" -- $words[$at])
                if test -f "$file"
                    set -l program $words[1]
                    set -l text (command $program -m print "$file" 2> /dev/null)
                    string match -rg '^([A-Za-z_][A-Za-z0-9_-]*) = ' -- $text
                end
        end
        set at (math $at + 1)
    end
end

complete -c abnfi -s m -l mode -x -a 'run check print' -d 'Choose what to do with the grammar'
complete -c abnfi -s s -l rule -x -a '(__abnfi_rules)' -d 'Judge by this rule [default: the first rule]'
complete -c abnfi -s l -l limit -x -d 'Take lines of at most N bytes, or Nk, NM, from 1 to 16777216'
complete -c abnfi -s u -l letters -x -a 'bytes utf8' -d 'Take bytes or code points of UTF-8 as letters'
complete -c abnfi -s z -l null-data -d 'Cut the input at NUL bytes in place of line feeds'
complete -c abnfi -s k -l keep-ends -d 'Judge each line with its line feed, or its NUL byte'
complete -c abnfi -s b -l budget -x -d 'Keep at most N items for a line, from 1 to 4294967295, which is no limit'
complete -c abnfi -s p -l print -x -a 'answers derived refused count none' -d 'Choose what to print'
complete -c abnfi -s H -l with-filename -d 'Print the name of the input before each line'
complete -c abnfi -s n -l line-number -d 'Print the number of each line before it'
complete -c abnfi -s q -l quiet -d 'Print nothing, and end at the first refused line'
complete -c abnfi -l line-buffered -d 'Answer each line before more input is read'
complete -c abnfi -s w -l viable -d 'Write how far a refused line goes: no N'
complete -c abnfi -s x -l explain -d 'Explain messages in more lines'
complete -c abnfi -s f -l format -x -a 'text gcc json' -d 'Choose the form of messages'
complete -c abnfi -s h -l help -f -d 'Print this help'
complete -c abnfi -l version -f -d 'Print the version'
