# Completes the command line of abnfx in fish. scripts/build/completions.py wrote this file.

complete -c abnfx -s c -l canonical -d 'Write the canonical text of the grammar'
complete -c abnfx -s l -l list -d 'List the rules, and what becomes of each'
complete -c abnfx -s x -l explain -d 'Explain why rules are no ABNF'
complete -c abnfx -l expand -d 'Write lists out as recipients accept them'
complete -c abnfx -l expand-send -d 'Write lists out as senders write them'
complete -c abnfx -s h -l help -f -d 'Print this help'
complete -c abnfx -l version -f -d 'Print the version'
