" ABNF (RFC 5234, RFC 7405)
if exists('b:current_syntax') | finish | endif
syntax case ignore
" a repetition may stand right before a name
syntax match abnfName    /\a[a-z0-9-]*/
syntax match abnfCore    /\%(ALPHA\|BIT\|CHAR\|CRLF\|CR\|CTL\|DIGIT\|DQUOTE\|HEXDIG\|HTAB\|LF\|LWSP\|OCTET\|SP\|VCHAR\|WSP\)[a-z0-9-]\@!/
syntax match abnfDefined /^\s*\zs\a[a-z0-9-]*\ze\s*=/
syntax match abnfSign    "=/\|[=/()\[\]]"
syntax match abnfTimes   /\d*\*\d*\|\<\d\+/
syntax match abnfNumber  /%\%(x\x\+\%([.-]\x\+\)*\|d\d\+\%([.-]\d\+\)*\|b[01]\+\%([.-][01]\+\)*\)/
syntax match abnfText    /\%(%[si]\)\?"[^"]*"/
syntax match abnfProse   /<[^>]*>/
syntax match abnfComment /;.*$/ contains=@Spell
highlight default link abnfDefined Function
highlight default link abnfName    Identifier
highlight default link abnfCore    Type
highlight default link abnfSign    Operator
highlight default link abnfTimes   Repeat
highlight default link abnfNumber  Number
highlight default link abnfText    String
highlight default link abnfProse   Special
highlight default link abnfComment Comment
let b:current_syntax = 'abnf'
