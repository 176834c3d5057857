" Scripts of raftbench are *.txt: their lines tell them apart. A text is a script if a line ---- is below a head, which begins with a
" directive's name. A slip of one letter in the name doesn't count, so that a mistake doesn't turn the server off.

let s:names = ['add-nodes', 'campaign', 'propose', 'propose-conf-change', 'process-ready', 'deliver-msgs', 'stabilize',
      \ 'tick-election', 'tick-heartbeat', 'set-randomized-election-timeout', 'transfer-leadership', 'forget-leader',
      \ 'report-unreachable', 'send-snapshot', 'compact', 'restart', 'log-level', 'raft-log', 'status', 'raft-state']
" How many lines are read.
let s:most = 500

" Whether a word is a name, or becomes one if one letter is added, removed, replaced or swapped with the next.
function! s:IsNearly(word, name) abort
  let l:same = 0
  while l:same < len(a:word) && a:word[l:same] ==# a:name[l:same]
    let l:same += 1
  endwhile
  let [l:left, l:due] = [a:word[l:same :], a:name[l:same :]]
  let l:swapped = l:left[1] . l:left[0] . l:left[2 :]
  return l:swapped ==# l:due || l:left[1 :] ==# l:due[1 :] || l:left ==# l:due[1 :] || l:left[1 :] ==# l:due
endfunction

" Whether a line begins with a directive's name.
function! s:IsHead(line) abort
  let l:word = matchstr(a:line, '^\s*\zs[^[:blank:]\\]*')
  return l:word =~# '^[a-z-]\+$' && !empty(filter(copy(s:names), 's:IsNearly(l:word, v:val)'))
endfunction

" Whether lines are a script. The head of a ---- is the first line of its paragraph, without comments; the first head may have empty
" lines below.
function! s:IsScript(lines) abort
  let [l:head, l:has_separator] = ['', 0]
  for l:line in a:lines
    if l:line =~# '^\s*----\s*$'
      if s:IsHead(l:head)
        return 1
      endif
      let l:has_separator = 1
    elseif l:line =~# '^\s*$'
      let l:head = l:has_separator ? '' : l:head
    elseif l:head ==# '' && l:line !~# '^\s*#'
      let l:head = l:line
    endif
  endfor
  return 0
endfunction

function! s:Detect() abort
  if (&filetype ==# '' || &filetype ==# 'text') && s:IsScript(getline(1, s:most))
    set filetype=raftbench
  endif
endfunction

autocmd BufNewFile,BufRead,BufWritePost,InsertLeave,TextChanged *.txt call s:Detect()
