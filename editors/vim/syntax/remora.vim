" Vim syntax file
" Language: Remora
" Made by editors/make.sh of editors/words

if exists("b:current_syntax")
  finish
endif

syntax iskeyword a-z,A-Z,48-57,43,45,42,47,60,62,61,33,63,95,46,58,38,37,94,36,126,64

" a byte that stands in comments and strings alone, and a word that begins like a literal and is none
syntax match remoraError '[^ \t();"#a-zA-Z0-9+*/<>=!?_.:&%^$~@-]'
syntax match remoraError /#[^ \t();"]*/
syntax match remoraError /\%(^\|[ \t();"]\)\@1<=-\?\d[^ \t();"]*/

syntax match remoraInteger /\%(^\|[ \t();"]\)\@1<=-\?\d\+\ze\%($\|[ \t();"]\)/
syntax match remoraCharacter /#\\[!-~]\ze\%($\|[ \t();"]\)/
syntax match remoraCharacter /#\\u\x\{1,6}\ze\%($\|[ \t();"]\)/
syntax match remoraBoolean /\%(#t\|#f\)\ze\%($\|[ \t();"]\)/

syntax keyword remoraDefinition define main nextgroup=remoraName skipwhite
syntax keyword remoraForm array frame unbox t-app i-app fn tfn ifn box
syntax keyword remoraTypeForm A -> Forall Pi Sigma
syntax keyword remoraType Int Bool Char
syntax keyword remoraSort Dim Shape
syntax keyword remoraPrimitive + - * div mod min max = < <= char= char< char->int bool->int and or not select append reverse take drop transpose replicate length positions index-or reduce fold iota reshape ravel filter
syntax keyword remoraIndex shape ++
syntax match remoraName /[^ \t();"]\+/ contained

syntax region remoraString start=/"/ end=/"\|$/ contains=remoraEscape,remoraNoEscape,remoraNoByte
syntax match remoraNoByte /[^ -~]/ contained
syntax match remoraNoEscape /\\./ contained
syntax match remoraEscape /\\["\\]/ contained

syntax match remoraBracket /[()]/
syntax keyword remoraTodo TODO FIXME XXX contained
syntax match remoraComment /;.*$/ contains=remoraTodo,@Spell

highlight default link remoraError Error
highlight default link remoraInteger Number
highlight default link remoraCharacter Character
highlight default link remoraBoolean Boolean
highlight default link remoraDefinition Define
highlight default link remoraName Identifier
highlight default link remoraForm Keyword
highlight default link remoraTypeForm Structure
highlight default link remoraType Type
highlight default link remoraSort StorageClass
highlight default link remoraPrimitive Function
highlight default link remoraIndex Special
highlight default link remoraString String
highlight default link remoraEscape SpecialChar
highlight default link remoraNoEscape Error
highlight default link remoraNoByte Error
highlight default link remoraBracket Delimiter
highlight default link remoraComment Comment
highlight default link remoraTodo Todo

let b:current_syntax = "remora"
