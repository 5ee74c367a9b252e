" Screens of Forth-83 as text. The lists of words stand in screens_words.vim.
if exists('b:current_syntax')
  finish
endif

" Words stand between blanks, in capitals or not.
syntax case ignore
syntax match screensTooLong /\%>64v.\+/ containedin=ALL
runtime! syntax/screens_words.vim
syntax match screensNumber /\(^\|\s\)\@<=-\?\d\x*\.\?\(\s\|$\)\@=/
syntax match screensDefined /\(\(^\|\s\)\(:\|CREATE\|2\?VARIABLE\|2\?CONSTANT\|VOCABULARY\|PRIM\|BOOT\|FRESH\)\s\+\)\@<=\S\+/
syntax region screensString start=/\(^\|\s\)\@<=\(\.\|ABORT\)"\s/ end=/"/ end=/^\(% screen \)\@=/
syntax region screensString start=/\(^\|\s\)\@<=\.(\s/ end=/)/ end=/^\(% screen \)\@=/
syntax region screensComment start=/\(^\|\s\)\@<=(\(\s\|$\)/ end=/)/ end=/^\(% screen \)\@=/
syntax match screensComment /\(^\|\s\)\@<=\\\(\s.*\)\?$/
syntax match screensHeading /^% screen \d.*$/

highlight default link screensHeading Title
highlight default link screensComment Comment
highlight default link screensString String
highlight default link screensNumber Number
highlight default link screensDefined Function
highlight default link screensDefining Define
highlight default link screensControl Statement
highlight default link screensWord Identifier
highlight default link screensTooLong Error

let b:current_syntax = 'screens'
