" Vim syntax of autolock programs. tests/editors.py compares its keywords with the lexer's.
if exists('b:current_syntax')
  finish
endif

syntax case match

syntax keyword autolockDeclaration lock struct global pool init atomic thread
syntax keyword autolockModifier final protected_by
syntax keyword autolockType int ref
syntax keyword autolockBinding let var where
syntax keyword autolockConditional if else
syntax keyword autolockRepeat while repeat
syntax keyword autolockStatement print return call
syntax keyword autolockConstant null
syntax match autolockNumber '\<\d\+\>'
syntax match autolockOperator '[-+*/%!<>=]\|&&\|||'
syntax keyword autolockTodo TODO FIXME contained
syntax match autolockComment '//.*$' contains=autolockTodo,@Spell

highlight default link autolockDeclaration Structure
highlight default link autolockModifier StorageClass
highlight default link autolockType Type
highlight default link autolockBinding Keyword
highlight default link autolockConditional Conditional
highlight default link autolockRepeat Repeat
highlight default link autolockStatement Statement
highlight default link autolockConstant Constant
highlight default link autolockNumber Number
highlight default link autolockOperator Operator
highlight default link autolockTodo Todo
highlight default link autolockComment Comment

let b:current_syntax = 'autolock'
