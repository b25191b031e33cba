" Runs autolock from Vim, and reads its faults: `:compiler autolock`, then `:make`. With no proved program yet:
" `:let g:autolock = '/the/path/autolock --unproved'` before that.
if exists('current_compiler')
  finish
endif
let current_compiler = 'autolock'

if exists(':CompilerSet') != 2
  command -nargs=* CompilerSet setlocal <args>
endif

let s:program = get(g:, 'autolock', 'autolock')
execute 'CompilerSet makeprg=' . escape(s:program . ' check %:S', ' \|"')
CompilerSet errorformat=%f:%l:%c:\ %m
