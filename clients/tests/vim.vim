" Run by editors.py: what Vim with ALE shows after each step. ALE shows the faults of files that are open.
set nocompatible hidden noswapfile encoding=utf-8 fileencodings=utf-8 virtualedit=onemore
filetype plugin on
let g:ale_linters_explicit = 1
let g:ale_linters = {'yaml': ['actionlint_lsp']}
let g:ale_lint_delay = 50
let g:ale_virtualtext_cursor = 0
let s:clients = $CLIENTS
let s:bin = s:clients . '/actionlint-lsp'
let $ACTIONLINT = $PROGRAM
let g:actionlint_lsp = s:bin
packadd ale
execute 'source ' . s:clients . '/vim/ale.vim'

let s:steps = []

" ALE 3.3 takes the protocol's columns, which are UTF-16 units, for Vim's, which are bytes: after non-ASCII characters its marks
" are misplaced. Here they are read as what they are.
function! s:characters(line, column) abort
  let units = 0
  let number = 0
  for char in split(a:line, '\zs')
    if units >= a:column - 1
      break
    endif
    let units += char2nr(char) > 0xffff ? 2 : 1
    let number += 1
  endfor
  return number + 1
endfunction

function! s:shown() abort
  let found = []
  for info in getbufinfo({'buflisted': 1})
    let path = info.name[len($FOLDER) + 1 :]
    for item in ale#engine#GetLoclist(info.bufnr)
      let line = get(getbufline(info.bufnr, item.lnum), 0, '')
      call add(found, [path, item.lnum, s:characters(line, item.col), item.text])
    endfor
  endfor
  return found
endfunction

function! s:settled(disk, quiet = 1.5) abort
  let last = ''
  let since = reltime()
  let begun = reltime()
  while reltimefloat(reltime(begun)) < 10 && reltimefloat(reltime(since)) < a:quiet
    sleep 50m
    let now = json_encode(s:shown())
    if now !=# last
      let last = now
      let since = reltime()
    endif
  endwhile
  let buffers = {}
  for info in getbufinfo({'buflisted': 1})
    if info.name !=# '' && info.loaded
      let buffers[info.name[len($FOLDER) + 1 :]] = join(getbufline(info.bufnr, 1, '$'), "\n") . "\n"
    endif
  endfor
  call add(s:steps, {'shown': s:shown(), 'buffers': buffers, 'disk': a:disk})
endfunction

" Names in the current buffer, a.yml: completion and definition.
function! s:names() abort
  call append('$', ['      - id: one', '        run: make', '      - if: steps.'])
  doautocmd TextChanged
  call s:settled({})
  " ALE completes only in insert mode, in which no function runs.
  call ale#util#Mode()
  function! ale#util#Mode(...) abort
    return 'i'
  endfunction
  let s:offered = []
  call cursor(line('$'), 19)
  call ale#completion#GetCompletions('ale-callback', {'callback': {found -> extend(s:offered, found)}})
  let begun = reltime()
  while reltimefloat(reltime(begun)) < 5 && empty(s:offered)
    sleep 50m
  endwhile
  if index(map(copy(s:offered), 'v:val.word'), 'one') < 0
    throw 'offered is ' . string(s:offered)
  endif
  call setline('$', '      - if: steps.one.outcome')
  call append('$', '        run: make')
  doautocmd TextChanged
  call s:settled({})
  call cursor(line('$') - 1, 19)
  ALEGoToDefinition
  let begun = reltime()
  while reltimefloat(reltime(begun)) < 5 && line('.') != line('$') - 3
    sleep 50m
  endwhile
  if line('.') != line('$') - 3
    throw 'the definition is at ' . line('.')
  endif
endfunction

function! s:go() abort
  execute 'edit ' . $FOLDER . '/.github/workflows/a.yml'
  execute 'edit ' . $FOLDER . '/.github/workflows/c.yml'
  " The server starts.
  call s:settled({}, 5)
  execute 'edit ' . $FOLDER . '/a/action.yml'
  call s:settled({})
  %s/required: true/required: false/
  doautocmd TextChanged
  call s:settled({})
  buffer c.yml
  call append(0, ['# one line more', ''])
  doautocmd TextChanged
  call s:settled({})
  call append('$', ['      - run: "é😀é ${{ github.reff }} ${{ env.x.y }}"', '        shell: fish'])
  doautocmd TextChanged
  call s:settled({})
  execute 'buffer ' . bufnr($FOLDER . '/.github/workflows/a.yml')
  %s/reff/ref/
  doautocmd TextChanged
  call s:settled({})
  call s:names()
  call s:settled({})
endfunction

function! s:run(timer) abort
  let told = {'ok': v:true, 'wrong': ''}
  try
    call s:go()
  catch
    let told = {'ok': v:false, 'wrong': v:exception . ' ' . v:throwpoint}
  endtry
  let told.steps = s:steps
  call writefile([json_encode(told)], $OUT)
  qall!
endfunction

autocmd VimEnter * call timer_start(300, function('s:run'))
