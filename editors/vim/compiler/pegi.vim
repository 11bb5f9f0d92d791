" :make checks the grammar, and lists what `-f gcc` writes
let current_compiler = 'pegi'
CompilerSet makeprg=pegi\ -m\ check\ -f\ gcc\ --\ %:S
CompilerSet errorformat=%f:%l:%c:\ %trror:\ %m,%f:%l:%c:\ %tarning:\ %m,%f:%l:%c:\ %tote:\ %m
