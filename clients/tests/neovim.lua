-- Run by editors.py: sourced, as Neovim 0.7 has no `-l`. Writes what Neovim shows after each step.
local folder = os.getenv('FOLDER')
vim.opt.runtimepath:prepend(os.getenv('CLIENTS') .. '/neovim')
vim.cmd('filetype on')
-- The cursor can be after a line's last character, as it is while typing.
vim.opt.virtualedit = 'onemore'
require('actionlint').setup({
  cmd = { os.getenv('CLIENTS') .. '/actionlint-lsp', '--program', os.getenv('PROGRAM'), '--no-earlier-faults' },
})

local PATIENCE = 60000
local steps = {}

local function path_of(diagnostic)
  return vim.api.nvim_buf_get_name(diagnostic.bufnr):sub(#folder + 2)
end

local function shows(path)
  return vim.tbl_contains(vim.tbl_map(path_of, vim.diagnostic.get()), path)
end

local function shown()
  local found = {}
  for _, one in ipairs(vim.diagnostic.get()) do
    local path, line = path_of(one), nil
    if vim.api.nvim_buf_is_loaded(one.bufnr) then
      line = vim.api.nvim_buf_get_lines(one.bufnr, one.lnum, one.lnum + 1, false)[1] or ''
    else
      line = vim.fn.readfile(folder .. '/' .. path)[one.lnum + 1] or ''
    end
    table.insert(found, { path, one.lnum + 1, vim.fn.strchars(line:sub(1, one.col)) + 1, one.message })
  end
  return found
end

-- Waits until the server has answered; until then the old faults are shown.
local function answered()
  local function is_served() return next(vim.lsp.buf_get_clients(0)) ~= nil end
  assert(vim.wait(PATIENCE, is_served, 20), 'no server was started')
  local params = { textDocument = vim.lsp.util.make_text_document_params() }
  assert(vim.lsp.buf_request_sync(0, 'textDocument/documentSymbol', params, PATIENCE), 'the server does not answer')
end

-- Waits until the server has answered, and what is shown has stayed the same for a while.
local function settled(disk, quiet)
  answered()
  local last, since = nil, vim.loop.now()
  vim.wait(8000, function()
    local now = vim.json.encode(shown())
    if now ~= last then
      last, since = now, vim.loop.now()
    end
    return vim.loop.now() - since > (quiet or 700)
  end, 20)
  local buffers = {}
  for _, buffer in ipairs(vim.api.nvim_list_bufs()) do
    if vim.api.nvim_buf_is_loaded(buffer) and vim.api.nvim_buf_get_name(buffer) ~= '' then
      local path = vim.api.nvim_buf_get_name(buffer):sub(#folder + 2)
      buffers[path] = table.concat(vim.api.nvim_buf_get_lines(buffer, 0, -1, false), '\n') .. '\n'
    end
  end
  table.insert(steps, { shown = shown(), buffers = buffers, disk = disk })
end

-- Sends the request that a key would make Neovim send; returns the result.
local function ask(method, more)
  local params = vim.tbl_extend('force', vim.lsp.util.make_position_params(), more or {})
  for _, answer in pairs(vim.lsp.buf_request_sync(0, method, params, PATIENCE) or {}) do
    return answer.result
  end
end

-- Hovers over the fault in a.yml, and takes the quick fix.
local function hover_and_fix()
  vim.api.nvim_win_set_cursor(0, { 6, 30 })
  local entry = ask('textDocument/hover')
  assert(entry and entry.contents.value:find('**X13**', 1, true), 'hovering shows no entry')
  local range = vim.lsp.util.make_range_params().range
  local actions = ask('textDocument/codeAction', { range = range, context = { diagnostics = {} } })
  local titles = vim.tbl_map(function(action) return action.title end, actions or {})
  assert(vim.tbl_contains(titles, 'change to "ref"'), 'the fixes are ' .. vim.inspect(titles))
  for _, action in ipairs(actions) do
    if action.title == 'change to "ref"' then
      vim.lsp.util.apply_workspace_edit(action.edit, 'utf-16')
    end
  end
end

-- Completes a property as CTRL-X CTRL-O does; returns what is offered.
local function offered(row, column)
  vim.api.nvim_win_set_cursor(0, { row, column })
  local before = vim.fn.line('.')
  vim.lsp.omnifunc(1, '')
  local found = {}
  for _, item in ipairs(ask('textDocument/completion').items) do
    table.insert(found, item.label)
  end
  assert(vim.fn.line('.') == before)
  return found
end

-- Names in a.yml: completion, hovering, definition and renaming.
local function names()
  vim.api.nvim_buf_set_lines(0, -1, -1, false, { '      - id: one', '        run: make', '      - if: steps.' })
  local last = vim.api.nvim_buf_line_count(0)
  assert(vim.tbl_contains(offered(last, 18), 'one'), 'the step is not offered')
  vim.api.nvim_buf_set_text(0, last - 1, 18, last - 1, 18, { 'one.outcome' })
  vim.api.nvim_buf_set_lines(0, -1, -1, false, { '        run: make' })
  vim.api.nvim_win_set_cursor(0, { last, 24 })
  local meaning = ask('textDocument/hover')
  assert(meaning and meaning.contents.value:find('`outcome`', 1, true), 'hovering shows no meaning')
  vim.api.nvim_win_set_cursor(0, { last, 19 })
  assert(ask('textDocument/definition')[1].range.start.line == last - 3, 'the definition is elsewhere')
  vim.lsp.util.apply_workspace_edit(ask('textDocument/rename', { newName = 'two' }), 'utf-16')
  local lines = vim.api.nvim_buf_get_lines(0, last - 3, last, false)
  assert(lines[1] == '      - id: two' and lines[3] == '      - if: steps.two.outcome', vim.inspect(lines))
  local symbols = ask('textDocument/documentSymbol')
  assert(#symbols == 1 and #symbols[1].children >= 1, vim.inspect(symbols))
end

local function go()
  vim.cmd('edit ' .. folder .. '/.github/workflows/c.yml')
  settled()
  vim.cmd('edit ' .. folder .. '/a/action.yml')
  settled()
  vim.cmd([[%s/required: true/required: false/]])
  settled()
  vim.cmd('buffer c.yml')
  vim.api.nvim_buf_set_lines(0, 0, 0, false, { '# one line more', '' })
  settled()
  vim.api.nvim_buf_set_lines(0, -1, -1, false, { '      - run: "😀é ${{ github.reff }} ${{ env.x.y }}"', '        shell: fish' })
  settled()
  vim.cmd('silent! undo')
  settled()
  vim.cmd('edit! ' .. folder .. '/.github/workflows/a.yml')
  settled()
  hover_and_fix()
  settled()
  names()
  settled()
  vim.cmd('silent write')
  vim.cmd('silent! bdelete! ' .. folder .. '/a/action.yml')
  local saved = table.concat(vim.fn.readfile(folder .. '/.github/workflows/a.yml'), '\n') .. '\n'
  settled({ ['.github/workflows/a.yml'] = saved })
  -- The disk changes without Neovim: it watches nothing, so the server looks by itself.
  local new = '.github/workflows/new.yml'
  vim.fn.writefile({ 'on: pussh', 'jobs: {}' }, folder .. '/' .. new)
  vim.wait(PATIENCE, function() return shows(new) end, 50)
  settled({ [new] = 'on: pussh\njobs: {}\n' })
  vim.fn.delete(folder .. '/' .. new)
  vim.wait(PATIENCE, function() return not shows(new) end, 50)
  settled({ [new] = vim.NIL })
end

-- Random edits of three buffers, as keys would make them: characters, lines, undo, redo, a step back and forth between the buffers.
local function random(edits, seed)
  math.randomseed(seed)
  local names = { '.github/workflows/c.yml', 'a/action.yml', '.github/workflows/a.yml' }
  for _, name in ipairs(names) do
    vim.cmd('edit ' .. folder .. '/' .. name)
  end
  settled()
  local words = { 'a', ':', ' ', '-', "'", '"', '{', '[', '#', '😀', 'é', '${{ github.reff }}', 'uses: ./a', 'who', 'true', '\t' }
  for number = 1, edits do
    if math.random(6) == 1 then
      vim.cmd('buffer ' .. vim.fn.bufnr(folder .. '/' .. names[math.random(#names)]))
    end
    local count = vim.api.nvim_buf_line_count(0)
    local row = math.random(count) - 1
    local line = vim.api.nvim_buf_get_lines(0, row, row + 1, false)[1]
    local column = vim.fn.byteidx(line, math.random(0, vim.fn.strchars(line)))
    local kind = math.random(8)
    if kind <= 3 then
      vim.api.nvim_buf_set_text(0, row, column, row, column, { words[math.random(#words)] })
    elseif kind == 4 then
      vim.api.nvim_buf_set_lines(0, row, row, false, { line })
    elseif kind == 5 and count > 3 then
      vim.api.nvim_buf_set_lines(0, row, row + 1, false, {})
    elseif kind == 6 then
      vim.cmd('silent! undo')
      vim.cmd('silent! undo')
    elseif kind == 7 then
      vim.cmd('silent! redo')
    else
      vim.api.nvim_buf_set_text(0, row, 0, row, column, { '  ' })
    end
    settled(nil, 400)
  end
end

local ok, wrong = pcall(function()
  if os.getenv('EDITS') then
    random(tonumber(os.getenv('EDITS')), tonumber(os.getenv('SEED') or '1'))
  else
    go()
  end
end)
local out = io.open(os.getenv('OUT'), 'w')
out:write(vim.json.encode({ ok = ok, wrong = tostring(wrong), steps = steps }))
out:close()
vim.cmd('qall!')
