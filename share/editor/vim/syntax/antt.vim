" antt: the definitions that contracts cite, and proofs. A name is any run of characters but blanks and
" ( ) { } . ; , @ " « », so a word that goes on behind a dash is another word.
if exists('b:current_syntax')
  finish
endif

syntax match anttName /[^[:space:](){}.;,@"«»]\+/ contains=NONE
syntax match anttOperator /\%(^\|[[:space:](){}.;,]\)\@1<=\%([→↦=:|×⊎∷≡≢≤<>≥↔¬+*^∙∘]\|++\|&&\|||\)\%($\|[[:space:](){}.;,]\)\@=/
syntax match anttType /\%(^\|[[:space:](){}.;,]\)\@1<=[A-Zℕ𝕀𝔽][^[:space:](){}.;,@"«»]*/
syntax match anttNumber /\%(^\|[[:space:](){},]\)\@1<=\%(0[xob][0-9a-fA-F_]\+\|[0-9][0-9_]*\)\%($\|[[:space:](){}.;,]\)\@=/
syntax match anttKeyword /\%(^\|[[:space:](){}.;,]\)\@1<=\%(data\|record\|deriving\|module\|where\|use\|mod\|pub\|package\|open\|as\|unfoldable\|abbrev\|axiom\|unfold\|unfolding\|ruleset\|mutual\|infixl\|infixr\|infix\|elim\|let\|in\|do\|pattern\|if\|then\|else\|λ\|∀\)\%($\|[[:space:](){}.;,]\)\@=/
syntax match anttTactic /\%(^\|[[:space:](){}.;,]\)\@1<=\%(rw\|rw⁻¹\|simp\|search\|grw\|cc\|omega\|grind\|hlevel\|assumption\|first_of\|by\)\%($\|[[:space:](){}.;,]\)\@=/
syntax match anttHole /\%(^\|[[:space:](){},]\)\@1<=?\k*/
" what a line at its left edge says the type of
syntax match anttDefined /^\%(\%(abbrev\|unfoldable\|pattern\|axiom\|pub\)\s\+\)*[^[:space:](){}.;,@"«»A-Z][^[:space:](){}.;,@"«»]*\ze\%( {[^}]*}\)\?\s\+:\s/ contains=anttKeyword
syntax region anttString start=/"/ skip=/\\./ end=/"/ oneline
syntax match anttComment /\%(^\|[[:space:](){}]\)\@1<=--.*$/ contains=anttTodo
syntax region anttComment start=/{-/ end=/-}/ contains=anttComment,anttTodo
syntax keyword anttTodo contained TODO FIXME

highlight default link anttOperator Operator
highlight default link anttType Type
highlight default link anttNumber Number
highlight default link anttKeyword Keyword
highlight default link anttTactic PreProc
highlight default link anttHole Error
highlight default link anttDefined Function
highlight default link anttString String
highlight default link anttComment Comment
highlight default link anttTodo Todo

let b:current_syntax = 'antt'
