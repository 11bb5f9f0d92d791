" Grammars in ABNF (RFC 5234, RFC 7405)
if exists('b:did_ftplugin') | finish | endif
let b:did_ftplugin = 1
setlocal comments=:; commentstring=;\ %s iskeyword+=-
let b:undo_ftplugin = 'setlocal comments< commentstring< iskeyword<'
