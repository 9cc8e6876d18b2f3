#!/bin/sh
# Makes the syntax files for Vim and for editors that read TextMate grammars, of the words in editors/words.
#
# usage: editors/make.sh [FOLDER]    FOLDER stands for editors/
set -eu
here=$(dirname -- "$(readlink -f -- "$0")")
folder=${1:-$here}
mkdir -p "$folder/vim/syntax" "$folder/vim/ftplugin" "$folder/vscode/syntaxes"

# The words of the kinds that are given, with spaces between them.
words() {
    awk -v kinds=" $* " '!/^#/ && index(kinds, " " $1 " ") { $1 = ""; printf "%s", $0 }' "$here/words" | sed 's/^ //'
}

# What a symbol is made of, as Vim lists characters: letters, digits and the signs, each of these by its number.
keyword_characters() {
    printf 'a-z,A-Z,48-57'
    words sign | tr -d ' ' | od -An -v -tu1 | tr -s ' \n' ',,' | sed 's/,$//'
}

# The signs, as they stand in brackets in a pattern: the hyphen is the last.
signs() {
    printf '%s-' "$(words sign | tr -d ' -')"
}

# A pattern of one of the words, for a text in JSON.
pattern() {
    words "$@" | sed 's/[].[*+?^$(){}|\\]/\\\\&/g' | tr ' ' '|'
}

cat >"$folder/vim/syntax/remora.vim" <<END
" Vim syntax file
" Language: Remora
" Made by editors/make.sh of editors/words

if exists("b:current_syntax")
  finish
endif

syntax iskeyword $(keyword_characters)

" a byte that stands in comments and strings alone, and a word that begins like a literal and is none
syntax match remoraError '[^ \t();"#a-zA-Z0-9$(signs)]'
syntax match remoraError /#[^ \\t();"]*/
syntax match remoraError /\\%(^\\|[ \\t();"]\\)\\@1<=-\\?\\d[^ \\t();"]*/

syntax match remoraInteger /\\%(^\\|[ \\t();"]\\)\\@1<=-\\?\\d\\+\\ze\\%(\$\\|[ \\t();"]\\)/
syntax match remoraCharacter /#\\\\[!-~]\\ze\\%(\$\\|[ \\t();"]\\)/
syntax match remoraCharacter /#\\\\u\\x\\{1,6}\\ze\\%(\$\\|[ \\t();"]\\)/
syntax match remoraBoolean /\\%($(words literal | sed 's/ /\\|/g')\\)\\ze\\%(\$\\|[ \\t();"]\\)/

syntax keyword remoraDefinition $(words top) nextgroup=remoraName skipwhite
syntax keyword remoraForm $(words expression atom)
syntax keyword remoraTypeForm $(words type)
syntax keyword remoraType $(words base)
syntax keyword remoraSort $(words sort)
syntax keyword remoraPrimitive $(words primitive)
syntax keyword remoraIndex $(words index | tr ' ' '\n' | grep -vxF -e "$(words primitive | tr ' ' '\n')" | tr '\n' ' ' | sed 's/ $//')
syntax match remoraName /[^ \\t();"]\\+/ contained

syntax region remoraString start=/"/ end=/"\\|\$/ contains=remoraEscape,remoraNoEscape,remoraNoByte
syntax match remoraNoByte /[^ -~]/ contained
syntax match remoraNoEscape /\\\\./ contained
syntax match remoraEscape /\\\\["\\\\]/ contained

syntax match remoraBracket /[()]/
syntax keyword remoraTodo TODO FIXME XXX contained
syntax match remoraComment /;.*\$/ contains=remoraTodo,@Spell

highlight default link remoraError Error
highlight default link remoraInteger Number
highlight default link remoraCharacter Character
highlight default link remoraBoolean Boolean
highlight default link remoraDefinition Define
highlight default link remoraName Identifier
highlight default link remoraForm Keyword
highlight default link remoraTypeForm Structure
highlight default link remoraType Type
highlight default link remoraSort StorageClass
highlight default link remoraPrimitive Function
highlight default link remoraIndex Special
highlight default link remoraString String
highlight default link remoraEscape SpecialChar
highlight default link remoraNoEscape Error
highlight default link remoraNoByte Error
highlight default link remoraBracket Delimiter
highlight default link remoraComment Comment
highlight default link remoraTodo Todo

let b:current_syntax = "remora"
END

cat >"$folder/vim/ftplugin/remora.vim" <<END
" Vim file type plugin
" Language: Remora
" Made by editors/make.sh of editors/words

if exists("b:did_ftplugin")
  finish
endif
let b:did_ftplugin = 1

setlocal comments=:; commentstring=;\\ %s
setlocal iskeyword=$(keyword_characters)
setlocal expandtab autoindent lisp lispwords=$(words top | tr ' ' ','),fn,tfn,ifn,unbox

let b:undo_ftplugin = "setlocal comments< commentstring< iskeyword< expandtab< autoindent< lisp< lispwords<"
END

# Of a word, in a text in JSON: what is in front of it, and what is behind it.
front='(?<![^\\s();\"])'
back='(?=$|[\\s();\"])'

cat >"$folder/vscode/syntaxes/remora.tmLanguage.json" <<END
{
  "comment": "Made by editors/make.sh of editors/words",
  "name": "Remora",
  "scopeName": "source.remora",
  "fileTypes": ["remora"],
  "patterns": [
    { "include": "#comment" },
    { "include": "#string" },
    { "include": "#literal" },
    { "include": "#definition" },
    { "include": "#word" },
    { "include": "#bracket" }
  ],
  "repository": {
    "comment": {
      "name": "comment.line.semicolon.remora",
      "match": ";.*$"
    },
    "string": {
      "name": "string.quoted.double.remora",
      "begin": "\"",
      "end": "\"|$",
      "patterns": [
        { "name": "constant.character.escape.remora", "match": "\\\\\\\\[\\\\\\\\\"]" },
        { "name": "invalid.illegal.escape.remora", "match": "\\\\\\\\." },
        { "name": "invalid.illegal.character.remora", "match": "[^\\\\x20-\\\\x7E]" }
      ]
    },
    "literal": {
      "patterns": [
        { "name": "constant.character.remora", "match": "#\\\\\\\\(?:u[0-9A-Fa-f]{1,6}|[!-~])$back" },
        { "name": "constant.language.boolean.remora", "match": "(?:$(pattern literal))$back" },
        { "name": "constant.numeric.integer.remora", "match": "$front-?[0-9]+$back" },
        { "name": "invalid.illegal.token.remora", "match": "#[^\\\\s();\"]*|$front-?[0-9][^\\\\s();\"]*|[^\\\\s();\"a-zA-Z0-9$(signs)]" }
      ]
    },
    "definition": {
      "match": "$front(define)[ \\\\t]+([^\\\\s();\"]+)",
      "captures": {
        "1": { "name": "keyword.declaration.remora" },
        "2": { "name": "entity.name.function.remora" }
      }
    },
    "word": {
      "patterns": [
        { "name": "keyword.declaration.remora", "match": "$front(?:$(pattern top))$back" },
        { "name": "keyword.control.remora", "match": "$front(?:$(pattern expression atom))$back" },
        { "name": "keyword.other.type.remora", "match": "$front(?:$(pattern type))$back" },
        { "name": "storage.type.remora", "match": "$front(?:$(pattern base))$back" },
        { "name": "storage.modifier.sort.remora", "match": "$front(?:$(pattern sort))$back" },
        { "name": "support.function.remora", "match": "$front(?:$(pattern primitive))$back" },
        { "name": "keyword.other.index.remora", "match": "$front(?:$(pattern index))$back" },
        { "name": "variable.other.remora", "match": "[a-zA-Z0-9$(signs)]+" }
      ]
    },
    "bracket": {
      "name": "punctuation.section.parens.remora",
      "match": "[()]"
    }
  }
}
END
