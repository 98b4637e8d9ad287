" Syntax of domains in SML, the State Manager Language (docs/LANGUAGE.md).
if exists('b:current_syntax')
  finish
endif

syntax case ignore
syntax iskeyword @,48-57,_

syntax keyword smimlItem class object objectset state action parameters is_of_class
syntax keyword smimlType int string
syntax keyword smimlInstruction do set move_to terminate_action wait insert remove in from
syntax keyword smimlConditional if then else endif
syntax keyword smimlOperator in_state not_in_state all_in any_in and or not
" These count only directly behind a slash.
syntax match smimlMark "/\s*\%(associated\|initial_state\|dead_state\)\>"
" SMI++ has this; it is left out of the language here.
syntax match smimlLeftOut "&VAL_OF_\w*"
syntax match smimlNumber "\%(\w\)\@<!-\?\d\+\>"
syntax region smimlString start=+"+ end=+"+ oneline
syntax match smimlComment "!.*$" contains=smimlTodo
syntax keyword smimlTodo contained TODO FIXME XXX

highlight default link smimlItem Structure
highlight default link smimlType Type
highlight default link smimlInstruction Statement
highlight default link smimlConditional Conditional
highlight default link smimlOperator Operator
highlight default link smimlMark PreProc
highlight default link smimlLeftOut Error
highlight default link smimlNumber Number
highlight default link smimlString String
highlight default link smimlComment Comment
highlight default link smimlTodo Todo

let b:current_syntax = 'smiml'
