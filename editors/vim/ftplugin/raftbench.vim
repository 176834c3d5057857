" Vim filetype plugin for scripts of raftbench

if exists('b:did_ftplugin')
  finish
endif
let b:did_ftplugin = 1

setlocal comments=:# commentstring=#\ %s
setlocal foldmethod=expr foldexpr=raftbench#Fold(v:lnum) foldtext=raftbench#FoldText() foldlevel=99
setlocal omnifunc=raftbench#Complete
" A name with dashes is one word, for CTRL-N and the like.
setlocal iskeyword+=-
let b:undo_ftplugin = 'setlocal comments< commentstring< foldmethod< foldexpr< foldtext< foldlevel< omnifunc< iskeyword<'
compiler raftbench
let b:undo_ftplugin .= ' makeprg< errorformat<'
