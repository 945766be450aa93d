-- For Neovim 0.7 and later: faults and names as you type, from the language server. It is lua/actionlint.lua on 'runtimepath'.
--   require('actionlint').setup()                                         the server is on the PATH
--   require('actionlint').setup({ cmd = { '/path/actionlint-lsp' } })     the server and its options
local M = {}

-- The client of each repository, if Neovim doesn't keep them itself (before 0.8).
local clients = {}

-- The nearest folder, from this one upwards, with workflows or a .git, which is a file in a worktree and in a submodule; else itself.
local function repository_of(folder)
  local above = folder
  while vim.fn.getftype(above .. '/.git') == '' and vim.fn.isdirectory(above .. '/.github/workflows') == 0 do
    local parent = vim.fn.fnamemodify(above, ':h')
    if parent == above then
      return folder
    end
    above = parent
  end
  return above
end

-- The root directory of the repository of a workflow or an action; nil for other files.
local function root_of(path)
  local root = path:match('^(.*)/%.github/workflows/[^/]+%.ya?ml$')
  if root then
    return root == '' and '/' or root
  end
  if not path:match('/action%.ya?ml$') then
    return nil
  end
  return repository_of(vim.fn.fnamemodify(path, ':h'))
end

-- Starts the server for a buffer's repository, unless it runs, and gives it the buffer.
function M.attach(buffer, options)
  local root = root_of(vim.api.nvim_buf_get_name(buffer))
  if not root then
    return nil
  end
  local config = {
    name = 'actionlint',
    cmd = options.cmd or { 'actionlint-lsp' },
    root_dir = root,
    workspace_folders = { { name = root, uri = vim.uri_from_fname(root) } },
  }
  if vim.lsp.start then
    return vim.lsp.start(config, { bufnr = buffer })
  end
  local client = clients[root]
  if not (client and vim.lsp.get_client_by_id(client)) then
    client = vim.lsp.start_client(config)
    clients[root] = client
  end
  if client then
    vim.lsp.buf_attach_client(buffer, client)
    -- So that CTRL-X CTRL-O completes.
    vim.bo[buffer].omnifunc = 'v:lua.vim.lsp.omnifunc'
  end
  return client
end

function M.setup(options)
  options = options or {}
  vim.api.nvim_create_autocmd('FileType', {
    pattern = 'yaml',
    callback = function(event)
      M.attach(event.buf, options)
    end,
  })
end

return M
