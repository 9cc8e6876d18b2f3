" Vim file type plugin
" Language: Remora
" Made by editors/make.sh of editors/words

if exists("b:did_ftplugin")
  finish
endif
let b:did_ftplugin = 1

setlocal comments=:; commentstring=;\ %s
setlocal iskeyword=a-z,A-Z,48-57,43,45,42,47,60,62,61,33,63,95,46,58,38,37,94,36,126,64
setlocal expandtab autoindent lisp lispwords=define,main,fn,tfn,ifn,unbox

let b:undo_ftplugin = "setlocal comments< commentstring< iskeyword< expandtab< autoindent< lisp< lispwords<"
