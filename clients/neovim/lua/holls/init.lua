-- hol-serve in Neovim (0.7 or later): errors and goals as one types. docs/EDITORS.md says how to use it.
--
-- Settings, before the first .hol file:  vim.g.holls = { command = { '/path/to/clients/bin/holls', 'lsp' }, symbols = true }
-- `command` starts the bridge; without it, the one of the clone that this folder lies in is started. With `symbols`, \forall
-- and the like become symbols as they are typed.
local M = {}

local here = vim.fn.fnamemodify(debug.getinfo(1, 'S').source:sub(2), ':p:h:h:h:h')
local settings = vim.g.holls or {}
local client_id = nil
local goals = { buffer = nil, asked = 0, answered = 0, plain = false }
local patience = 300 -- So many milliseconds the goals at the cursor may take before the window says that they aren't known yet.
local unknown = vim.api.nvim_create_namespace('holls_unknown')

local symbols = {
  forall = '∀', exists = '∃', unique = '∃!', lambda = 'λ', select = 'ε', ['and'] = '∧', ['or'] = '∨', ['not'] = '¬',
  implies = '⇒', iff = '⇔', to = '→', ['in'] = '∈', union = '∪', inter = '∩', diff = '∖', subset = '⊆', psubset = '⊂', empty = '∅', leq = '≤',
  geq = '≥', times = '×', circ = '∘',
}

local function client()
  return client_id and vim.lsp.get_client_by_id(client_id) or nil
end

-- Whether the bridge knows the current buffer: before it has begun, it would answer that no such document is open.
local function here_is_hol()
  return vim.bo.filetype == 'hol' and client() ~= nil and client().initialized == true
end

local function position()
  return vim.lsp.util.make_position_params(0, 'utf-16')
end

-- The window that shows the goals, or nil.
local function window()
  for _, found in ipairs(goals.buffer and vim.fn.win_findbuf(goals.buffer) or {}) do
    return found
  end
end

local function show(text)
  if not (goals.buffer and vim.api.nvim_buf_is_valid(goals.buffer)) then
    return
  end
  vim.bo[goals.buffer].modifiable = true
  vim.api.nvim_buf_set_lines(goals.buffer, 0, -1, false, vim.split(text:gsub('\n$', ''), '\n'))
  vim.bo[goals.buffer].modifiable = false
end

-- Asks for the goals at the cursor. Of several answers under way only the last one asked for is shown.
function M.update()
  if vim.bo.filetype ~= 'hol' or not window() then
    return
  end
  if not here_is_hol() then
    show(client() and 'not known yet: holls begins' or 'holls has ended: :HolRestart starts it again')
    return
  end
  goals.asked = goals.asked + 1
  local number = goals.asked
  vim.defer_fn(function()
    if number == goals.asked and goals.answered < number then
      show('not known yet: hol_serve is at work')
    end
  end, patience)
  client().request('proof/goals', position(), function(failure, result)
    if number == goals.asked then
      goals.answered = number
      local text = result and (goals.plain and result.plain or result.text) or ''
      show(failure and ('no answer: ' .. (failure.message or '')) or text)
    end
  end, 0)
end

-- Marks the lines of commands whose outcome isn't known yet by a sign: `.`, or `:` where one has been running for over 5 seconds.
local function mark_unknown(_, params)
  local buffer = vim.uri_to_bufnr(params.textDocument.uri)
  if not vim.api.nvim_buf_is_loaded(buffer) then
    return
  end
  vim.api.nvim_buf_clear_namespace(buffer, unknown, 0, -1)
  local last = vim.api.nvim_buf_line_count(buffer) - 1
  for _, found in ipairs(params.processing) do
    local text = found.kind == 2 and ':' or '.'
    for line = found.range.start.line, math.min(found.range['end'].line, last) do
      vim.api.nvim_buf_set_extmark(buffer, unknown, line, 0, { sign_text = text, sign_hl_group = 'NonText', priority = 1 })
    end
  end
end

-- Tells the bridge what is seen, so that it asks for that first.
function M.tell_view()
  if here_is_hol() then
    local start, last = { line = vim.fn.line('w0') - 1, character = 0 }, { line = vim.fn.line('w$') - 1, character = 0 }
    local params = position()
    params.range = { start = start, ['end'] = last }
    client().notify('proof/viewRange', params)
  end
end

-- Opens the goal window beside the file, or closes it.
function M.toggle()
  local open = window()
  if open then
    vim.api.nvim_win_close(open, true)
    return
  end
  if not (goals.buffer and vim.api.nvim_buf_is_valid(goals.buffer)) then
    goals.buffer = vim.api.nvim_create_buf(false, true)
    vim.api.nvim_buf_set_name(goals.buffer, 'goals')
    vim.bo[goals.buffer].bufhidden = 'hide'
    vim.bo[goals.buffer].modifiable = false
  end
  local from = vim.api.nvim_get_current_win()
  vim.cmd('botright vsplit')
  vim.api.nvim_win_set_buf(0, goals.buffer)
  for option, value in pairs({ number = false, relativenumber = false, signcolumn = 'no', wrap = true, linebreak = true, winfixwidth = true }) do
    vim.wo[option] = value
  end
  vim.api.nvim_win_set_width(0, math.floor(vim.o.columns * 2 / 5))
  vim.api.nvim_set_current_win(from)
  M.update()
end

-- Shows the goals as the program says them, or again in the notation of the file.
function M.plain()
  goals.plain = not goals.plain
  M.update()
end

-- Before the last other window is closed: the goal window goes with it.
local function close_with_last()
  local others = 0
  for _, found in ipairs(vim.api.nvim_tabpage_list_wins(0)) do
    if found ~= window() and vim.api.nvim_win_get_config(found).relative == '' then
      others = others + 1
    end
  end
  if others == 1 and window() then
    vim.api.nvim_win_close(window(), true)
  end
end

-- Starts the server anew, as after it was built.
function M.restart()
  if client() then
    client().request('workspace/executeCommand', { command = 'holls.restart' }, function() end, 0)
  end
end

-- Finds theorems by parts of names or by a pattern of what they state, or of what they conclude alone; the quickfix list takes them, the
-- best first.
function M.search(query, conclusion)
  if not client() then
    return
  end
  client().request('hol/search', { query = query, conclusion = conclusion }, function(failure, result)
    if failure then
      vim.notify(failure.message or 'no answer', vim.log.levels.WARN)
      return
    end
    local items = {}
    for _, one in ipairs(result) do
      local place = one.location
      local origin = not place and '  (the prelude)' or not one.isMade and '  (not proved or checked yet)' or ''
      table.insert(items, {
        filename = place and vim.uri_to_fname(place.uri) or nil, lnum = place and place.range.start.line + 1 or nil,
        col = place and place.range.start.character + 1 or nil,
        text = one.name .. ' |- ' .. one.statement .. origin,
      })
    end
    vim.fn.setqflist({}, ' ', { title = 'HolSearch ' .. query, items = items })
    vim.cmd(#items > 0 and 'botright copen' or "echo 'no theorem found'")
  end, 0)
end

local searching -- The token of the search that is under way.

-- Ends a search of a proof.
function M.cancel()
  local client = searching and (vim.lsp.get_clients or vim.lsp.get_active_clients)({ name = 'holls' })[1]
  if client then
    client.rpc.notify('window/workDoneProgress/cancel', { token = searching })
  end
end

-- Says below the windows what a search of a proof tries, which may take some seconds: Neovim itself shows no progress.
local function show_progress(failure, result, context, more)
  vim.lsp.handlers['$/progress'](failure, result, context, more)
  local value = result.value or {}
  if tostring(result.token):match('^holls/search/') then
    searching = value.kind ~= 'end' and result.token or nil
    local text = value.kind == 'end' and '' or 'Finding a proof: ' .. (value.message or '..')
    vim.api.nvim_echo({ { text:sub(1, vim.o.columns - 15) } }, false, {})
  end
end

local function config()
  local command = settings.command or { here .. '/bin/holls', 'lsp' }
  return {
    name = 'holls',
    cmd = command,
    root_dir = vim.fn.getcwd(),
    flags = { debounce_text_changes = 50 },
    capabilities = vim.lsp.protocol.make_client_capabilities(),
    on_attach = function()
      vim.schedule(M.update)
    end,
    handlers = {
      ['textDocument/publishDiagnostics'] = function(...)
        vim.lsp.handlers['textDocument/publishDiagnostics'](...)
        M.update()
      end,
      ['$/hol/fileProgress'] = mark_unknown,
      ['$/progress'] = show_progress,
    },
    on_exit = function(status)
      client_id = nil
      if status ~= 0 and vim.v.exiting == vim.NIL then
        vim.schedule(function()
          vim.notify('holls ended with status ' .. status .. '; is Python 3.9 on the PATH? :HolRestart starts it again', vim.log.levels.ERROR)
        end)
      end
    end,
  }
end

local function abbreviations()
  for name, symbol in pairs(symbols) do
    vim.keymap.set('i', '\\' .. name, symbol, { buffer = true })
  end
end

local function keys()
  local function map(key, work, what)
    vim.keymap.set('n', key, work, { buffer = true, silent = true, desc = what })
  end
  map('<LocalLeader>g', M.toggle, 'goal window')
  map('<LocalLeader>p', M.plain, 'goals in plain text, or in notation')
  map('K', vim.lsp.buf.hover, 'goals after the command')
  map('gd', vim.lsp.buf.definition, 'where the name is made')
  map('gr', vim.lsp.buf.references, 'where the name is used')
  map('<LocalLeader>r', vim.lsp.buf.rename, 'another name for what is made, wherever it is used')
  map('<LocalLeader>a', vim.lsp.buf.code_action, 'what could be done about the error')
  map('<LocalLeader>c', M.cancel, 'ends the search of a proof')
  map('<LocalLeader>w', vim.lsp.buf.workspace_symbol, 'a name of the project')
  vim.keymap.set('i', '<C-s>', vim.lsp.buf.signature_help, { buffer = true, silent = true, desc = 'arguments of the tactic' })
  map('<LocalLeader>d', vim.diagnostic.open_float, 'the error in full')
  map(']d', vim.diagnostic.goto_next, 'next error')
  map('[d', vim.diagnostic.goto_prev, 'error before')
end

-- What `attach` did to the current buffer is undone, as before it is read anew.
function M.detach()
  local buffer = vim.api.nvim_get_current_buf()
  pcall(vim.api.nvim_del_augroup_by_name, 'holls_' .. buffer)
  for _, name in ipairs({ 'HolGoals', 'HolPlain', 'HolRestart' }) do
    pcall(vim.api.nvim_buf_del_user_command, buffer, name)
  end
  vim.api.nvim_buf_clear_namespace(buffer, unknown, 0, -1)
  if client() and vim.lsp.buf_is_attached(buffer, client_id) then
    vim.lsp.buf_detach_client(buffer, client_id)
  end
end

-- Attaches the current buffer to the bridge, which is started for the first one.
function M.attach()
  local buffer = vim.api.nvim_get_current_buf()
  if vim.lsp.start then
    client_id = vim.lsp.start(config(), { bufnr = buffer })
  else
    client_id = client() and client_id or vim.lsp.start_client(config())
  end
  if not client_id then
    return
  end
  vim.lsp.buf_attach_client(buffer, client_id)
  vim.diagnostic.config({ update_in_insert = true, severity_sort = true, virtual_text = true }, vim.lsp.diagnostic.get_namespace(client_id))
  vim.bo[buffer].omnifunc = 'v:lua.vim.lsp.omnifunc'
  if vim.o.completeopt == 'menu,preview' then -- Neovim's default, which opens a window at each completion.
    vim.o.completeopt = 'menu,menuone'
  end
  keys()
  if settings.symbols then
    abbreviations()
  end
  local group = vim.api.nvim_create_augroup('holls_' .. buffer, { clear = true })
  vim.api.nvim_create_autocmd({ 'CursorMoved', 'CursorMovedI', 'BufEnter' }, { group = group, buffer = buffer, callback = M.update })
  vim.api.nvim_create_autocmd('QuitPre', { group = group, buffer = buffer, callback = close_with_last })
  vim.api.nvim_create_autocmd({ 'CursorHold', 'BufEnter', 'WinScrolled' }, { group = group, buffer = buffer, callback = M.tell_view })
  vim.api.nvim_buf_create_user_command(buffer, 'HolGoals', M.toggle, {})
  vim.api.nvim_buf_create_user_command(buffer, 'HolPlain', M.plain, {})
  -- Of all buffers, so that one may search again from the list of what was found.
  vim.api.nvim_create_user_command('HolSearch', function(given) M.search(given.args, given.bang) end, { nargs = '+', bang = true })
  vim.api.nvim_buf_create_user_command(buffer, 'HolRestart', function()
    if client() then M.restart() else M.attach() end
  end, {})
end

return M
