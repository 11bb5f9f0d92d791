" :make checks the grammar, and lists what `-f gcc` writes
let current_compiler = 'abnfi'
CompilerSet makeprg=abnfi\ -m\ check\ -f\ gcc\ --\ %:S
CompilerSet errorformat=%f:%l:%c:\ %trror:\ %m,%f:%l:%c:\ %tarning:\ %m,%f:%l:%c:\ %tote:\ %m
