" Vim syntax of metaml: copy to ~/.vim/syntax/metaml.vim, and set it with: autocmd BufRead,BufNewFile *.metaml setf metaml
if exists('b:current_syntax')
  finish
endif
syntax keyword metamlKeyword let rec in fun if then else kernel main
syntax keyword metamlOperator not fst snd mod
syntax keyword metamlStaging run close open lift liftb
syntax keyword metamlType int bool
syntax keyword metamlBoolean true false
syntax match metamlNumber /\<[0-9]\+\>/
syntax match metamlBracket /\.<\|>\.\|\.\~/
syntax match metamlEnd /;;/
syntax match metamlComment /#.*$/
highlight default link metamlKeyword Keyword
highlight default link metamlOperator Operator
highlight default link metamlStaging PreProc
highlight default link metamlType Type
highlight default link metamlBoolean Boolean
highlight default link metamlNumber Number
highlight default link metamlBracket Special
highlight default link metamlEnd Delimiter
highlight default link metamlComment Comment
let b:current_syntax = 'metaml'
