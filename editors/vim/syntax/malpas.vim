" Vim syntax file
" Language: the text language of malpas
" Written by editors/make from editors/keywords.txt.

if exists("b:current_syntax")
  finish
endif

syntax case match
syntax iskeyword @,48-57,_
syntax sync fromstart

syntax keyword malpasStructure TITLE PROC ENDPROC FINISH
syntax keyword malpasDeclaration CONST TYPE
syntax keyword malpasMode IN INOUT OUT LOCAL
syntax keyword malpasType BOOL WRAP
syntax keyword malpasControl IF ELSE ENDIF LOOP ENDLOOP EXIT WHEN SKIP RETURN
syntax keyword malpasJump LABEL GOTO CALL
syntax keyword malpasAssertion PRE POST ASSERT OLD
syntax keyword malpasTruth TRUE FALSE
syntax keyword malpasOperator NOT AND OR DIV MOD

syntax match malpasIllegal "[^[:blank:][:cntrl:]A-Za-z0-9_:;,()+*=<>/.-]"
syntax match malpasNumber "\<[0-9]\+\>"
syntax match malpasSymbol ":=\|\.\.\|/=\|<=\|>=\|[-+*=<>]"
syntax match malpasName "\%(\<\%(TITLE\|PROC\|CALL\)\s\+\)\@<=[A-Za-z][A-Za-z0-9_]*"
syntax region malpasComment start="\[" end="\]" contains=malpasTodo
syntax keyword malpasTodo contained TODO FIXME

highlight default link malpasStructure Structure
highlight default link malpasDeclaration Typedef
highlight default link malpasMode StorageClass
highlight default link malpasType Type
highlight default link malpasControl Statement
highlight default link malpasJump Label
highlight default link malpasAssertion PreCondit
highlight default link malpasTruth Boolean
highlight default link malpasOperator Operator
highlight default link malpasIllegal Error
highlight default link malpasNumber Number
highlight default link malpasSymbol Operator
highlight default link malpasName Function
highlight default link malpasComment Comment
highlight default link malpasTodo Todo

let b:current_syntax = "malpas"
