" Vim syntax file: models of the Beacon Calculus as Matgravel reads them.
" To use it for every *.bc file, put into your vimrc:
"   autocmd BufRead,BufNewFile *.bc setlocal syntax=matgravel
if exists("b:current_syntax")
  finish
endif

syntax match matgravelComment "//.*$"
syntax match matgravelNumber "\<\d\+\%(\.\d\+\)\?\>"
syntax keyword matgravelWord abs max min union inter
syntax match matgravelDefinition "^\s*\h\w*\ze\s*\["
syntax match matgravelVariable "^\s*\h\w*\ze\s*=[^=]"
syntax match matgravelSign "->\|||\|\.\.\|[+@~!#?\\]"
syntax region matgravelAction matchgroup=matgravelBrace start="{" end="}" contains=matgravelComment,matgravelNumber,matgravelWord,matgravelSign

highlight default link matgravelComment Comment
highlight default link matgravelNumber Number
highlight default link matgravelWord Keyword
highlight default link matgravelDefinition Function
highlight default link matgravelVariable Identifier
highlight default link matgravelSign Operator
highlight default link matgravelBrace Delimiter

let b:current_syntax = "matgravel"
