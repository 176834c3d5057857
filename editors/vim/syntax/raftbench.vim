" Vim syntax file
" Language: scripts of raftbench (docs/SCRIPTS.md)
"
" A script is blocks: lead lines, a head, lines of input, a line ----, and an expectation, which is plain, up to an empty line,
" or double, between a line ---- and a pair of them.

if exists('b:current_syntax')
  finish
endif

let s:cpo = &cpo
set cpo&vim

syn case match
syn iskeyword @,48-57,_,-

syn match raftbenchComment "^\s*#.*$" contains=raftbenchTodo,@Spell
syn keyword raftbenchTodo contained TODO FIXME XXX

" The head: a name and arguments. It goes on after a backslash.
syn match raftbenchUnknown "^\s*[^#[:blank:]\\][^[:blank:]\\]*"
      \ nextgroup=raftbenchArguments,raftbenchInput,raftbenchSeparator skipnl skipempty
syn match raftbenchName "^\s*\%(add-nodes\|campaign\|propose\|propose-conf-change\)\ze\%(\s\|\\\|$\)"
      \ nextgroup=raftbenchArguments,raftbenchInput,raftbenchSeparator skipnl skipempty
syn match raftbenchName "^\s*\%(process-ready\|deliver-msgs\|stabilize\)\ze\%(\s\|\\\|$\)"
      \ nextgroup=raftbenchArguments,raftbenchInput,raftbenchSeparator skipnl skipempty
syn match raftbenchName "^\s*\%(tick-election\|tick-heartbeat\|set-randomized-election-timeout\)\ze\%(\s\|\\\|$\)"
      \ nextgroup=raftbenchArguments,raftbenchInput,raftbenchSeparator skipnl skipempty
syn match raftbenchName "^\s*\%(transfer-leadership\|forget-leader\|report-unreachable\|send-snapshot\)\ze\%(\s\|\\\|$\)"
      \ nextgroup=raftbenchArguments,raftbenchInput,raftbenchSeparator skipnl skipempty
syn match raftbenchName "^\s*\%(compact\|restart\|log-level\|raft-log\|status\|raft-state\)\ze\%(\s\|\\\|$\)"
      \ nextgroup=raftbenchArguments,raftbenchInput,raftbenchSeparator skipnl skipempty
syn region raftbenchArguments start="[[:blank:]\\]" skip="\\\s*$" end="$" contained keepend
      \ contains=raftbenchOption,raftbenchNumber,raftbenchContinued
      \ nextgroup=raftbenchInput,raftbenchSeparator skipnl skipempty
syn match raftbenchOption "\%(\s\|^\)\@1<=[^[:blank:]=()]\+\ze=" contained
syn match raftbenchNumber "\%([[:blank:]=(,]\|^\)\@1<=\d\+\ze\%([[:blank:]),\\]\|$\)" contained
syn match raftbenchContinued "\\\ze\s*$" contained

" Lines of input, which few directives look at.
syn match raftbenchInput "^.*$" contained nextgroup=raftbenchInput,raftbenchSeparator skipnl skipempty
syn match raftbenchSeparator "^\s*----\s*$" contained nextgroup=raftbenchPlain,raftbenchDouble skipnl

syn region raftbenchPlain start="^\ze.*\S" end="^\s*$" contained keepend contains=@raftbenchOutput
syn region raftbenchDouble matchgroup=raftbenchSeparator start="^----$" end="^----\n----$" contained keepend
      \ contains=@raftbenchOutput

" What a directive prints.
syn cluster raftbenchOutput contains=raftbenchLevel,raftbenchAlarm,raftbenchError,raftbenchLine,raftbenchMessage,
      \raftbenchRole,raftbenchField,raftbenchString
syn match raftbenchLevel "^\%(DEBUG\|INFO\)\ze " contained
syn match raftbenchAlarm "^\%(WARN\|ERROR\)\ze " contained
syn match raftbenchError "^error: .*$" contained contains=raftbenchString
syn match raftbenchLine "^\%(deliver\|drop\|queue\|no room for\|no messages\|stopped after\|ok\)\>" contained
syn match raftbenchLine "^  \%(hard\|snapshot\|save\|apply\|send\)\>" contained
syn match raftbenchLine "^\d\+ \zs\%(ready\|has nothing ready\)$" contained
syn match raftbenchMessage "\<Msg\a\+\>" contained
syn keyword raftbenchRole contained follower precandidate candidate leader
syn match raftbenchField "\<[a-z]\+\ze=" contained
syn region raftbenchString start=+"+ skip=+\\x\x\x+ end=+"+ contained oneline

" A block is known by those before it.
syn sync fromstart

hi def link raftbenchComment Comment
hi def link raftbenchTodo Todo
hi def link raftbenchName Statement
hi def link raftbenchUnknown Error
hi def link raftbenchOption Type
hi def link raftbenchNumber Number
hi def link raftbenchContinued Special
hi def link raftbenchInput PreProc
hi def link raftbenchSeparator Delimiter
hi def link raftbenchLevel Identifier
hi def link raftbenchAlarm WarningMsg
hi def link raftbenchError ErrorMsg
hi def link raftbenchLine Keyword
hi def link raftbenchMessage Function
hi def link raftbenchRole Constant
hi def link raftbenchField Type
hi def link raftbenchString String

let b:current_syntax = 'raftbench'

let &cpo = s:cpo
unlet s:cpo
