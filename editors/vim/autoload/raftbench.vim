" What Vim does with scripts of raftbench: folds, and completion.

let s:directives = {
      \ 'add-nodes': ['voters', 'learners', 'index', 'content', 'inflight', 'prevote', 'checkquorum', 'step-down-on-removal'],
      \ 'campaign': [], 'propose': [], 'propose-conf-change': ['v1', 'transition'], 'process-ready': [],
      \ 'deliver-msgs': ['type', 'drop', 'from', 'skip', 'count'], 'stabilize': ['rounds'], 'tick-election': [], 'tick-heartbeat': [],
      \ 'set-randomized-election-timeout': ['timeout'], 'transfer-leadership': ['from', 'to'], 'forget-leader': [],
      \ 'report-unreachable': [], 'send-snapshot': [], 'compact': [], 'restart': [], 'log-level': [], 'raft-log': [], 'status': [],
      \ 'raft-state': [],
      \ }
let s:truths = ['true', 'false']
let s:levels = ['debug', 'info', 'warn', 'error', 'fatal', 'none']
let s:values = {
      \ 'prevote': s:truths, 'checkquorum': s:truths, 'step-down-on-removal': s:truths, 'v1': s:truths,
      \ 'transition': ['auto', 'explicit', 'implicit'], 'log-level': s:levels,
      \ 'type': ['MsgApp', 'MsgAppResp', 'MsgHeartbeat', 'MsgHeartbeatResp', 'MsgPreVote', 'MsgPreVoteResp', 'MsgProp', 'MsgSnap',
      \          'MsgTimeoutNow', 'MsgTransferLeader', 'MsgUnreachable', 'MsgVote', 'MsgVoteResp'],
      \ }

" The lines of the buffer's blocks: of each its first line, that of its head, that of its separator and its last one; 0 where
" there is no separator. They are looked for again where the buffer has changed.
function! raftbench#Blocks() abort
  if get(b:, 'raftbench_tick', -1) == b:changedtick
    return b:raftbench_blocks
  endif
  let l:lines = getline(1, '$')
  let l:blocks = []
  let l:at = 0
  let l:most = len(l:lines)
  while l:at < l:most
    let l:head = match(l:lines, '^\s*[^#[:blank:]]', l:at)
    if l:head < 0
      break
    endif
    let l:below = l:head
    while l:below < l:most && l:lines[l:below] =~# '\\\s*$'
      let l:below += 1
    endwhile
    let l:separator = match(l:lines, '^\s*----\s*$', l:below + 1)
    let l:end = l:separator < 0 ? l:most - 1 : s:End(l:lines, l:separator + 1)
    call add(l:blocks, [l:at + 1, l:head + 1, l:separator + 1, l:end + 1])
    let l:at = l:end + 1
  endwhile
  let b:raftbench_tick = b:changedtick
  let b:raftbench_blocks = l:blocks
  return l:blocks
endfunction

" The last line of the expectation that begins there, with what closes it.
function! s:End(lines, at) abort
  let l:most = len(a:lines)
  if get(a:lines, a:at, '') ==# '----'
    let l:close = a:at + 1
    while l:close + 1 < l:most && (a:lines[l:close] !=# '----' || a:lines[l:close + 1] !=# '----')
      let l:close += 1
    endwhile
    let l:end = min([l:close + 1, l:most - 1])
    return get(a:lines, l:end + 1, 'none') =~# '^\s*$' ? l:end + 1 : l:end
  endif
  let l:empty = match(a:lines, '^\s*$', a:at)
  return l:empty < 0 ? l:most - 1 : l:empty
endfunction

" The block that has this line, or none.
function! s:BlockOf(line) abort
  for l:block in raftbench#Blocks()
    if l:block[0] <= a:line && a:line <= l:block[3]
      return l:block
    endif
  endfor
  return []
endfunction

" A fold a block, from its first line on.
function! raftbench#Fold(line) abort
  if get(b:, 'raftbench_fold_tick', -1) != b:changedtick
    let b:raftbench_levels = {}
    for l:block in raftbench#Blocks()
      let b:raftbench_levels[l:block[0]] = '>1'
    endfor
    let l:last = get(raftbench#Blocks(), -1, [0, 0, 0, 0])[3]
    let b:raftbench_levels[l:last + 1] = '0'
    let b:raftbench_fold_tick = b:changedtick
  endif
  return get(b:raftbench_levels, a:line, '=')
endfunction

" What a closed fold shows: its head, and how many lines are expected of it.
function! raftbench#FoldText() abort
  let l:block = s:BlockOf(v:foldstart)
  if empty(l:block)
    return getline(v:foldstart)
  endif
  let l:expected = l:block[2] ? len(filter(getline(l:block[2] + 1, l:block[3]), 'v:val =~# "\\S" && v:val !=# "----"')) : 0
  return printf('%s  (%d %s)', getline(l:block[1]), l:expected, l:expected == 1 ? 'line' : 'lines')
endfunction

" Where a head stands: the words of it up to the cursor, or none within input and expectations.
function! s:HeadUpTo(line, column) abort
  let l:block = s:BlockOf(a:line)
  if empty(l:block)
    " Below the last block a new one begins.
    return strpart(getline(a:line), 0, a:column)
  endif
  let l:text = ''
  for l:number in range(l:block[1], l:block[2] ? l:block[2] : l:block[3])
    if l:number == a:line
      return l:text . strpart(getline(l:number), 0, a:column)
    endif
    if getline(l:number) !~# '\\\s*$'
      return v:null
    endif
    let l:text .= substitute(getline(l:number), '\\\s*$', ' ', '')
  endfor
  return v:null
endfunction

" Completion (CTRL-X CTRL-O) of the names of directives, of their options, and of the options' values.
function! raftbench#Complete(findstart, base) abort
  let l:head = s:HeadUpTo(line('.'), col('.') - 1)
  if a:findstart
    if l:head is v:null
      return -3
    endif
    return match(strpart(getline('.'), 0, col('.') - 1), '[^[:blank:]=(),]*$')
  endif
  let l:head = l:head is v:null ? '' : l:head
  let l:name = matchstr(l:head, '^\s*\zs\S\+\ze\s')
  if l:name ==# ''
    let l:found = sort(keys(s:directives))
  else
    let l:key = matchstr(l:head, '\%(^\|\s\)\zs[^[:blank:]=()]\+\ze=\%([^[:blank:]()]*\|([^()]*\)$')
    if l:key !=# ''
      let l:found = get(s:values, l:key, [])
    elseif l:name ==# 'log-level'
      let l:found = s:levels + ['log-level=']
    else
      let l:given = map(split(l:head), 'matchstr(v:val, "^[^=()]*\\ze=")')
      let l:options = get(s:directives, l:name, []) + ['log-level']
      let l:found = map(filter(copy(l:options), 'index(l:given, v:val) < 0'), 'v:val . "="')
    endif
  endif
  return filter(copy(l:found), 'stridx(v:val, a:base) == 0')
endfunction
