" Vim syntax of specifications in Temporal Stream Logic, and of programs.
if exists("b:current_syntax")
  finish
endif
syntax keyword tslSection assume guarantee always initially
syntax keyword tslTruth true false
syntax keyword tslTemporal X F G U W R A
syntax match tslOperator "&&\|||\|<->\|->\|<-\|!\|="
syntax match tslNumber "\<[0-9]\+\>"
syntax match tslHead "^\(tslprogram\|tsltables\|tslwords\|tslinputs\) 1$"
syntax match tslComment "//.*$"
syntax region tslComment start="/\*" end="\*/" contains=tslNested
syntax region tslNested start="/\*" end="\*/" contains=tslNested contained
highlight default link tslSection Keyword
highlight default link tslTruth Boolean
highlight default link tslTemporal Statement
highlight default link tslOperator Operator
highlight default link tslNumber Number
highlight default link tslHead PreProc
highlight default link tslComment Comment
highlight default link tslNested Comment
let b:current_syntax = "tsl"
