# Completes the command line of abnfg in fish. scripts/build/completions.py wrote this file.

# Prints the names of the rules of the grammar on the line, if it is there.
function __abnfg_rules
    set -l words (commandline -op)
    set -l at 2
    while test $at -le (count $words)
        switch $words[$at]
            case -s --rule -m --mode -l --limit -c --count -g --seed -u --letters
                set at (math $at + 1)
            case '-*'
            case '*'
                set -l file (string replace -r '^~/' "$HOME/" -- $words[$at])
                if test -f "$file"
                    set -l program (string replace -r 'abnfg$' abnfi -- $words[1])
                    set -l text (command $program -m print "$file" 2> /dev/null)
                    string match -rg '^([A-Za-z_][A-Za-z0-9_-]*) = ' -- $text
                end
        end
        set at (math $at + 1)
    end
end

complete -c abnfg -s s -l rule -x -a '(__abnfg_rules)' -d 'List lines of this rule [default: the first rule]'
complete -c abnfg -s m -l mode -x -a 'all cover miss random' -d 'Choose which lines to list'
complete -c abnfg -s l -l limit -x -d 'List lines of at most N symbols, from 1 to 16777216'
complete -c abnfg -s c -l count -x -d 'List at most N lines, from 1 to 4294967295'
complete -c abnfg -s a -l alike -d 'List lines of mode `all` with the first alone of symbols that no set distinguishes'
complete -c abnfg -s e -l edges -d 'Also list lines of mode `miss` by wrong symbols next to those that can follow'
complete -c abnfg -s g -l seed -x -d 'Draw lines of mode `random` by this number, from 0 to 18446744073709551615'
complete -c abnfg -s u -l letters -x -a 'bytes utf8' -d 'Take bytes or code points of UTF-8 as symbols'
complete -c abnfg -s x -l explain -d 'Explain why lines of mode `miss` are rejected, or report the goals of mode `cover`'
complete -c abnfg -s z -l null-data -d 'End lines with NUL bytes in place of line feeds'
complete -c abnfg -s h -l help -f -d 'Print this help'
complete -c abnfg -l version -f -d 'Print the version'
