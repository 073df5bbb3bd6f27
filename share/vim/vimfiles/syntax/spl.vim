" Programs in SPL. Keywords are reserved in programs and proofs alike: those that stand in proofs alone are shown as errors.
if exists('b:current_syntax')
    finish
endif

syntax case match
syntax match splName /\<[A-Za-z][A-Za-z0-9_]*\>/
syntax match splNumeral /\<[0-9]\+\>/
syntax match splLabel /\<[A-Za-z][A-Za-z0-9_]*\>\ze\s*::\?\%(\s*\%(integer\|boolean\)\>\)\@!\%([^=:]\|$\)/
syntax match splOperator /:=\|::\|||\|\/\\\|\\\/\|==>\|->\|!=\|<=\|>=\|<<\|>>\|[~=<>+*-]/
syntax keyword splDeclaration in local out where
syntax keyword splType integer boolean
syntax keyword splConstant true false
syntax keyword splStatement skip await request release noncritical critical
syntax keyword splStatement if then else fi while loop forever do select or cobegin coend
syntax keyword splElsewhere at invariant waiting wait response leads within by using just chain ranked fair net base delay top
syntax keyword splElsewhere group helper rank diagram terminal node edge on
syntax match splWrong /[^ \t\r:;,.()\[\]{}|\/\\~=!<>+*a-zA-Z0-9-]/
syntax match splComment /%.*$/

highlight default link splNumeral Number
highlight default link splLabel Label
highlight default link splOperator Operator
highlight default link splDeclaration StorageClass
highlight default link splType Type
highlight default link splConstant Boolean
highlight default link splStatement Statement
highlight default link splElsewhere Error
highlight default link splWrong Error
highlight default link splComment Comment

let b:current_syntax = 'spl'
