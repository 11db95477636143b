" Rattle: Rust with contracts. What stands between the braces of a clause is antt.
if exists('b:current_syntax')
  finish
endif
syntax include @antt syntax/antt.vim
unlet! b:current_syntax

syntax keyword rattleKeyword as break const continue crate else enum extern fn for if impl in let loop match mod move mut pub ref return self static struct super trait type unsafe use where while
syntax keyword rattleSelf Self
syntax keyword rattleBoolean true false
syntax keyword rattlePrimitive bool char str u8 u16 u32 u64 u128 usize i8 i16 i32 i64 i128 isize f32 f64
syntax match rattleType /\<\u\w*/
syntax match rattleNumber /\<\%(0x[0-9a-fA-F_]\+\|0o[0-7_]\+\|0b[01_]\+\|\d[0-9_]*\)\%([ui]\%(8\|16\|32\|64\|128\|size\)\)\?\>/
syntax match rattleMacro /\<\w\+!\ze[(\[{]/
syntax match rattleCall /\<\l\w*\ze(/
syntax match rattleDefined /\%(\<fn\s\+\)\@<=\w\+/
syntax match rattleLifetime /'[a-z_]\w*\>'\@!/
syntax match rattleCharacter /b\?'\%([^'\\]\|\\\%([nrt0\\'"]\|x\x\x\|u{\x\+}\)\)'/
syntax region rattleString start=/b\?"/ skip=/\\./ end=/"/
syntax region rattleString start=/b\?r\z(#*\)"/ end=/"\z1/
syntax region rattleAttribute matchgroup=rattleAttribute start=/#!\?\[/ end=/\]/ contains=rattleBrackets,rattleString
syntax region rattleBrackets contained transparent start=/\[/ end=/\]/ contains=rattleBrackets,rattleString

" a clause: its word, its name, and its statement
syntax match rattleClause /\<\%(requires\|ensures\)\>/ nextgroup=rattleClauseName,rattleStatement skipwhite
syntax match rattleClauseName contained /\w\+/ nextgroup=rattleStatement skipwhite
syntax region rattleStatement contained matchgroup=rattleBrace start=/{/ end=/}/ contains=@antt,rattleInner,rattleComment
syntax region rattleInner contained transparent start=/{/ end=/}/ contains=@antt,rattleInner,rattleComment
" a ghost item: names of definitions, or a statement
syntax region rattleGhostUse matchgroup=rattleGhost start=/\<ghost\s\+use\>/ matchgroup=NONE end=/;/ contains=anttType,anttOperator
syntax match rattleGhost /\<ghost\>\%(\s\+use\>\)\@!/ nextgroup=rattleGhostName skipwhite
syntax match rattleGhostName contained /\w\+\s*=/ nextgroup=rattleStatement skipwhite

syntax match rattleComment "//.*$" contains=anttTodo
syntax match rattleDoc "//[/!].*$" contains=anttTodo
syntax region rattleComment start="/\*" end="\*/" contains=rattleComment,anttTodo
syntax sync minlines=60

highlight default link rattleKeyword Keyword
highlight default link rattleSelf Keyword
highlight default link rattleBoolean Boolean
highlight default link rattlePrimitive Type
highlight default link rattleType Type
highlight default link rattleNumber Number
highlight default link rattleMacro Macro
highlight default link rattleCall Function
highlight default link rattleDefined Function
highlight default link rattleLifetime Special
highlight default link rattleCharacter Character
highlight default link rattleString String
highlight default link rattleAttribute PreProc
highlight default link rattleClause Statement
highlight default link rattleClauseName Label
highlight default link rattleBrace Delimiter
highlight default link rattleGhost PreProc
highlight default link rattleGhostName Label
highlight default link rattleComment Comment
highlight default link rattleDoc SpecialComment

let b:current_syntax = 'rattle'
