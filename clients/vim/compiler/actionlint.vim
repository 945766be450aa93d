" Vim compiler: actionlint. :compiler actionlint, then :make, or :make FILE.
if exists('current_compiler')
  finish
endif
let current_compiler = 'actionlint'

" The linter is the one that all clients take: $ACTIONLINT, or the one beside them, or one on the PATH.
let s:found = systemlist(shellescape(expand('<sfile>:p:h:h:h') . '/which-actionlint'))
if v:shell_error
  echohl ErrorMsg | echomsg get(s:found, 0, 'cannot start actionlint') | echohl None
  let s:found = ['actionlint']
endif
execute 'CompilerSet makeprg=' . escape(shellescape(s:found[0], 1) . ' --oneline', ' \|"')
CompilerSet errorformat=%f:%l:%c:\ %m\ [%*[a-z-]],%-G%.%#

" The linter counts characters and Vim counts bytes, so columns after multibyte characters are corrected.
augroup actionlint
  autocmd!
  autocmd QuickFixCmdPost make call s:columns()
augroup END

function! s:columns() abort
  if get(b:, 'current_compiler', get(g:, 'current_compiler', '')) !=# 'actionlint'
    return
  endif
  let items = getqflist()
  for item in items
    if item.valid && item.bufnr && item.col > 1
      call bufload(item.bufnr)
      let line = get(getbufline(item.bufnr, item.lnum), 0, '')
      let bytes = byteidx(line, item.col - 1)
      let item.col = (bytes < 0 ? strlen(line) : bytes) + 1
    endif
  endfor
  call setqflist(items, 'r')
endfunction
