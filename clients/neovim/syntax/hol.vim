" Colours of hol-serve's commands.
if exists('b:current_syntax')
  finish
endif
syntax case match
syntax iskeyword @,48-57,_,'
syntax keyword holCommand g e b r qed oops import new_type new_constant new_axiom new_definition new_basic_type_definition deftac
syntax keyword holTactical THEN THENL ORELSE REPEAT TRY CHANGED_TAC EVERY FIRST REPLICATE_TAC DISCH_THEN POP_ASSUM FIRST_ASSUM SUBGOAL_THEN
syntax match holTactic /\<[A-Z0-9_]*_TAC\>/
syntax match holEnd /;;/
syntax match holDeclaration /\%(\%(^\|;;\)\s*\)\@<=\%(local\s\+\)\?\%(infixr\|infixl\|type_infixr\|notation\|sets\|abbreviate\|no_notation\|define_type\|define\|inductive\|record\|specification\|theorems\|let\|simp\|sorry\)\>/
syntax region holTerm matchgroup=holQuote start=/`/ end=/`/ contains=holComment,holSymbol,holConstant,holNumber,holBracket,holWord
syntax match holSymbol "[-+*/<>=&|^%#$~\\!?@.:,]\+\|[∀∃λε∧∨¬⇒⟹⇔⟺→∈∪∩∖⊆⊂∅≤≥×∘]" contained
syntax match holBracket /[][{};]/ contained
syntax match holNumber /\<[0-9]\+\>/ contained
syntax keyword holConstant T F ONE_ONE ONTO contained
syntax keyword holWord if then else let in and contained
syntax region holComment start=/(\*/ end=/\*)/ contains=holComment
highlight default link holCommand Statement
highlight default link holDeclaration PreProc
highlight default link holTactical Operator
highlight default link holTactic Function
highlight default link holEnd Delimiter
highlight default link holQuote Delimiter
highlight default link holTerm String
highlight default link holSymbol Operator
highlight default link holBracket Delimiter
highlight default link holNumber Number
highlight default link holWord Keyword
highlight default link holConstant Constant
highlight default link holComment Comment
let b:current_syntax = 'hol'
