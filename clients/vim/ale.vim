" For Vim with ALE: faults as you type, from the language server. Source this file in vimrc, after ALE:
"   source /path/clients/vim/ale.vim
"   let g:ale_linters = {'yaml': ['actionlint_lsp']}
"   let g:actionlint_lsp = '/path/clients/actionlint-lsp'      if it isn't on the PATH
" ALE's own linter `actionlint` starts another program by other options, so this one has a name of its own.
function! s:root(buffer) abort
  let path = expand('#' . a:buffer . ':p')
  let at = match(path, '/\.github/workflows/[^/]*$')
  if at >= 0
    return at == 0 ? '/' : path[: at - 1]
  endif
  " The nearest folder above with workflows or a .git, which is a file in a worktree and in a submodule.
  let folder = fnamemodify(path, ':h')
  let above = folder
  while getftype(above . '/.git') is# '' && !isdirectory(above . '/.github/workflows')
    let parent = fnamemodify(above, ':h')
    if parent is# above
      return folder
    endif
    let above = parent
  endwhile
  return above
endfunction

call ale#linter#Define('yaml', {
\   'name': 'actionlint_lsp',
\   'lsp': 'stdio',
\   'executable': get(g:, 'actionlint_lsp', 'actionlint-lsp'),
\   'command': '%e',
\   'project_root': function('s:root'),
\})
