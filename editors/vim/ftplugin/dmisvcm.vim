" Vim file type plugin: programs of DMIS as vcm reads them
if exists("b:did_ftplugin")
  finish
endif
let b:did_ftplugin = 1
setlocal commentstring=$$\ %s comments=:$$
" what `%` of matchit goes between
let b:match_ignorecase = 1
let b:match_words = '\<IF\>:\<ELSE\>:\<ENDIF\>,\<DO\>:\<ENDDO\>,\<SELECT\>:\<CASE\>\|\<DFTCAS\>:\<ENDSEL\>,\<MEAS\>:\<ENDMES\>,=\s*MACRO\>:\<ENDMAC\>,\<DMISMN\>:\<ENDFIL\>'
let b:undo_ftplugin = "setlocal commentstring< comments< | unlet! b:match_words b:match_ignorecase"
