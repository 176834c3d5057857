" Vim compiler file: `:make` checks the buffer's script, and `:make PATH..` these paths too. Each mismatch and each refused
" script is an entry of the quickfix list, at its line. g:raftbench_program names another program than raftbench in the path.

if exists('current_compiler')
  finish
endif
let current_compiler = 'raftbench'

let s:cpo = &cpo
set cpo&vim

let s:program = get(g:, 'raftbench_program', 'raftbench')
execute 'CompilerSet makeprg=' . escape(s:program . ' check --color never %:S $*', ' \|"')
" The lines of a mismatch; then the heads of mismatches and what is wrong with scripts; then totals and all else.
CompilerSet errorformat=%-G-\ %.%#,%-G+\ %.%#,%-G\ \ %.%#,%f:%l:\ %m,%-G%.%#

let &cpo = s:cpo
unlet s:cpo
