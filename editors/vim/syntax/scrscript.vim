" Vim syntax file
" Language: scripts of scr: those of simulate and replay, and those of tools/play

if exists('b:current_syntax')
  finish
endif

syntax case match

syntax match scrStatement "^\s*\(SET\|BACK\|TOGGLE\|RAMP\|REPEAT\|END\|EXPECT\|INCLUDE\)\>"
syntax match scrCase "^\s*CASE\>.*$" contains=scrComment
syntax keyword scrOperator AND NOT STEP
syntax keyword scrConstant TRUE FALSE
syntax match scrNumber "\<\d\+"
syntax match scrComment "#.*$" contains=@Spell

highlight default link scrStatement Statement
highlight default link scrCase Title
highlight default link scrOperator Operator
highlight default link scrConstant Constant
highlight default link scrNumber Number
highlight default link scrComment Comment

let b:current_syntax = 'scrscript'
