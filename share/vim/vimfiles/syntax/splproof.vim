" Proofs of programs in SPL. Keywords are reserved in programs and proofs alike: those of programs alone are shown as errors.
if exists('b:current_syntax')
    finish
endif

syntax case match
syntax match splName /\<[A-Za-z][A-Za-z0-9_]*\>/
syntax match splNumeral /\<[0-9]\+\>/
syntax match splOperator /||\|\/\\\|\\\/\|==>\|->\|!=\|<=\|>=\|[~=<>+*-]/
syntax keyword splGoal invariant waiting wait response leads within
syntax keyword splRule by using just chain ranked fair net base delay top group helper rank diagram terminal node edge on
syntax keyword splAt at
syntax keyword splConstant true false
syntax keyword splElsewhere in local out where integer boolean skip await request release noncritical critical
syntax keyword splElsewhere if then else fi while loop forever do select or cobegin coend
syntax match splWrong /[^ \t\r:;,.()\[\]{}|\/\\~=!<>+*a-zA-Z0-9-]/
syntax match splComment /%.*$/

highlight default link splNumeral Number
highlight default link splOperator Operator
highlight default link splGoal Statement
highlight default link splRule Keyword
highlight default link splAt Special
highlight default link splConstant Boolean
highlight default link splElsewhere Error
highlight default link splWrong Error
highlight default link splComment Comment

let b:current_syntax = 'splproof'
