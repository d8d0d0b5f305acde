" Vim syntax file
" Language: specifications of scr, after the grammar of docs/LANGUAGE.md

if exists('b:current_syntax')
  finish
endif

syntax case match

syntax keyword scrDeclaration SPECIFICATION TYPE CONST MONITORED MODECLASS TERM CONTROLLED NAT FINISH
syntax keyword scrTable CONDITION EVENT MODES ROW VALUES FROM TO END ASSERT
syntax keyword scrClause INIT OVER STEP
syntax keyword scrOperator AND OR NOT WHEN
syntax keyword scrConstant TRUE FALSE NEVER
syntax keyword scrType BOOLEAN

syntax match scrEvent "@[TFC]\w\@!"
syntax match scrNumber "\<\d\+"
syntax match scrPrimed "\<\a\w*'"
syntax match scrBar "|"
syntax keyword scrTodo TODO FIXME contained
syntax match scrComment "#.*$" contains=scrTodo,@Spell

highlight default link scrDeclaration Statement
highlight default link scrTable Keyword
highlight default link scrClause Keyword
highlight default link scrOperator Operator
highlight default link scrConstant Constant
highlight default link scrType Type
highlight default link scrEvent Function
highlight default link scrNumber Number
highlight default link scrPrimed Special
highlight default link scrBar Delimiter
highlight default link scrTodo Todo
highlight default link scrComment Comment

let b:current_syntax = 'scr'
