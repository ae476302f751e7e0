" Vim syntax of tj scripts. Put this file into ~/.vim/syntax, and into ~/.vim/ftdetect/tj.vim the line
"     autocmd BufRead,BufNewFile *.tj setfiletype tj
if exists('b:current_syntax')
  finish
endif

syntax keyword tjDeclaration task let
syntax keyword tjConditional if else
syntax keyword tjRepeat while
syntax keyword tjStatement print set return
syntax keyword tjAsk new fork get join or
syntax keyword tjOwn own
syntax keyword tjSelf me
syntax match tjNumber "\<\d\+\>"
syntax match tjOperator "[-+*/%=<>]\|!="
syntax match tjName "\(\<task\s\+\|\<fork\s\+\)\@<=\h\w*"
syntax match tjComment "#.*$" contains=@Spell

highlight default link tjDeclaration Keyword
highlight default link tjConditional Conditional
highlight default link tjRepeat Repeat
highlight default link tjStatement Statement
highlight default link tjAsk Special
highlight default link tjOwn StorageClass
highlight default link tjSelf Constant
highlight default link tjNumber Number
highlight default link tjOperator Operator
highlight default link tjName Function
highlight default link tjComment Comment

setlocal commentstring=#\ %s
let b:current_syntax = 'tj'
