" Vim filetype plugin
" Language: the text language of malpas

if exists("b:did_ftplugin")
  finish
endif
let b:did_ftplugin = 1

" A comment is closed by ], and does not nest.
setlocal comments=s:[,e:]
setlocal commentstring=[\ %s\ ]
setlocal formatoptions-=t
compiler malpas

let b:match_words = '\<IF\>:\<ELSE\>:\<ENDIF\>,\<LOOP\>:\<EXIT\>:\<ENDLOOP\>,\<PROC\>:\<RETURN\>:\<ENDPROC\>,\<TITLE\>:\<FINISH\>'
let b:match_ignorecase = 0
let b:undo_ftplugin = "setlocal comments< commentstring< formatoptions< makeprg< errorformat< | unlet! b:match_words b:match_ignorecase"
