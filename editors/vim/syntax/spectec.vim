" Colours for SpecTec specifications, by the tokens of docs/language.md.
if exists('b:current_syntax')
    finish
endif

" a name goes on with `'`
syntax iskeyword @,48-57,_,39
syntax case match

syntax match spectecVariable /\<\l\k*/
syntax match spectecRelation /\<\u\k*/
syntax match spectecAtom /\<\u[A-Z0-9_']*\>/
syntax match spectecNumber /\<\%(0x\x\+\|\d\+\)\>/
syntax match spectecSign /[-+*\/\\^?|,:;=<>~.]/

syntax keyword spectecKeyword syntax relation rule var def hint if otherwise
syntax keyword spectecType bool nat int text
syntax keyword spectecConstant eps true false
syntax keyword spectecLeftOut grammar rat real

" behind `.` and `$` each name is one, also a reserved word
syntax match spectecField /\.\a\k*/
syntax match spectecFunction /\$\l\k*/

syntax match spectecEscape /\\["\\nt]/ contained
syntax region spectecText start=/"/ skip=/\\./ end=/"/ oneline contains=spectecEscape
syntax match spectecLineComment /;;.*$/
syntax region spectecComment start=/(;/ end=/;)/ contains=spectecComment

highlight default link spectecVariable Identifier
highlight default link spectecRelation Type
highlight default link spectecAtom Constant
highlight default link spectecNumber Number
highlight default link spectecSign Operator
highlight default link spectecKeyword Keyword
highlight default link spectecType Type
highlight default link spectecConstant Boolean
highlight default link spectecLeftOut Error
highlight default link spectecField Identifier
highlight default link spectecFunction Function
highlight default link spectecEscape SpecialChar
highlight default link spectecText String
highlight default link spectecLineComment Comment
highlight default link spectecComment Comment

let b:current_syntax = 'spectec'
