" What Vim does with files of autolock: comments, indents by blocks, `:make` by `autolock check`, `gq` by `autolock format` (`gggqG` for a whole file).
if exists('b:did_ftplugin')
  finish
endif
let b:did_ftplugin = 1

setlocal commentstring=//\ %s
setlocal comments=://
setlocal expandtab shiftwidth=2 softtabstop=2
setlocal nocindent smartindent
compiler autolock
execute 'setlocal formatprg=' . escape(get(g:, 'autolock', 'autolock') . ' format /dev/stdin', ' \|"')
let b:undo_ftplugin = 'setlocal commentstring< comments< expandtab< shiftwidth< softtabstop< cindent< smartindent< makeprg< errorformat< formatprg<'
