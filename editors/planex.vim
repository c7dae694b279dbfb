" Syntax of planex scripts. Copy to ~/.vim/syntax/planex.vim, and to ~/.vim/ftdetect/planex.vim the line
"   autocmd BufRead,BufNewFile *.planex setfiletype planex
" So that :make lists the faults of a script and jumps to them: set makeprg=./planex\ check-script\ % errorformat=%f:%l:\ %m
if exists('b:current_syntax')
  finish
endif
syntax match planexComment /#.*/
syntax match planexVariable /?\h\w*/
syntax match planexNumber /\<\d\+\>/
syntax match planexWildCard /\$/
syntax match planexSign /[~+=-]/
syntax match planexDeclaration /^\s*\(script\|object\|predicate\|axiom\|operator\|building\|fact\|sort\|table\|height\|nodes\|shapes\|weight\)\>/
syntax match planexBlock /^\s*\(pre\|delete\|add\|end\|room\|door\|box\|robot\|param\|step\|goal\|proof\)\>/
syntax match planexCommand /^\s*\(plan\|learn\|show\|disturb\|run\|facts\|duo\|save\|certify\|edit\|pursue\|tree\)\>/
syntax match planexPredicate /\h\w*\ze\s*(/
highlight default link planexComment Comment
highlight default link planexVariable Identifier
highlight default link planexNumber Number
highlight default link planexWildCard Special
highlight default link planexSign Operator
highlight default link planexDeclaration Keyword
highlight default link planexBlock Type
highlight default link planexCommand Statement
highlight default link planexPredicate Function
let b:current_syntax = 'planex'
