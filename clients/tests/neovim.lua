-- What a user does in Neovim, step by step; what is seen goes to the file $RESULTS as JSON. Run by test_neovim.py.
local results = {}
local folder = vim.env.FOLDER
local seconds = 240

vim.g.holls = { command = { vim.env.PYTHON, '-I', '-S', vim.env.HOLLS, 'lsp', '--server', vim.env.SERVER } }
vim.cmd('filetype plugin on | syntax on')

local function said(buffer)
  local found = {}
  for _, one in ipairs(vim.diagnostic.get(buffer or 0)) do
    table.insert(found, { one.lnum + 1, one.col + 1, one.severity, one.message })
  end
  return found
end

local function keep(name, holds)
  local reached = vim.wait(seconds * 1000, holds, 20)
  results[name] = { reached = reached, said = said() }
end

local function count(number)
  return function() return #vim.diagnostic.get(0) == number end
end

local function goals()
  for _, window in ipairs(vim.api.nvim_list_wins()) do
    local buffer = vim.api.nvim_win_get_buf(window)
    if vim.api.nvim_buf_get_name(buffer):match('goals$') then
      return table.concat(vim.api.nvim_buf_get_lines(buffer, 0, -1, false), '\n')
    end
  end
  return ''
end

-- A new file, and the goal window before the bridge has begun: what stands in the window by and by, without a key pressed.
local function begin()
  results.begun = {}
  vim.cmd('edit ' .. folder .. '/New.hol')
  vim.cmd('HolGoals')
  vim.wait(seconds * 1000, function()
    local text = goals()
    if text ~= '' and text ~= results.begun[#results.begun] then
      table.insert(results.begun, text)
    end
    return text ~= '' and not text:match('not known yet') and vim.lsp.get_client_by_id(1).initialized
  end, 5)
  vim.wait(500)
  table.insert(results.begun, goals())
  vim.cmd('HolGoals')
  results.echoed = {}
  vim.api.nvim_echo = function(chunks) table.insert(results.echoed, chunks[1][1]) end
  local client = vim.lsp.get_client_by_id(1)
  for _, value in ipairs({ { kind = 'begin', title = 'Finding a proof' }, { kind = 'report', message = 'logic' }, { kind = 'end' } }) do
    client.handlers['$/progress'](nil, { token = 'holls/search/1', value = value }, { client_id = 1 }, {})
  end
end

local function run()
  vim.cmd('edit ' .. folder .. '/A.hol')
  keep('six things to say', count(6))
  vim.cmd('HolGoals')
  vim.api.nvim_win_set_cursor(0, { 2, 3 })
  vim.cmd('doautocmd CursorMoved')
  vim.wait(seconds * 1000, function() return goals():match('goal 2 of 2') ~= nil end, 20)
  results.window = goals()

  vim.api.nvim_buf_set_text(0, 2, 2, 2, 9, { 'ALL_TAC' })
  keep('one is gone after an edit', count(5))
  vim.cmd('silent undo')
  keep('and is back after undo', count(6))

  vim.cmd('write | edit')
  vim.api.nvim_win_set_cursor(0, { 3, 0 })
  vim.cmd('doautocmd CursorMoved')
  keep('after :edit they are there again', count(6))
  vim.api.nvim_buf_set_text(0, 2, 2, 2, 9, { 'ALL_TAC' })
  keep('and an edit is followed', count(5))
  vim.cmd('silent undo')
  keep('and back', count(6))

  vim.cmd('HolSearch eta')
  results.search = { reached = vim.wait(seconds * 1000, function() return #vim.fn.getqflist() > 0 end, 20), said = {} }
  results.found = vim.fn.getqflist()[1].text
  vim.fn.setqflist({}, 'r')
  vim.cmd('HolSearch! _ ==> P (_)')
  results.conclusions = { reached = vim.wait(seconds * 1000, function() return #vim.fn.getqflist() > 0 end, 20), said = {} }
  results.concluded = vim.tbl_map(function(one) return one.text:match('^%S+') end, vim.fn.getqflist())
  vim.cmd('cclose')

  local paste = {}
  for number = 1, 125 do
    vim.list_extend(paste, { 'g P' .. number .. ' `x = x`;;', 'e ALL_TAC;;', 'e REFL_TAC;;', 'qed;;' })
  end
  vim.api.nvim_buf_set_lines(0, 0, 0, false, paste)
  keep('six behind 500 pasted commands', function()
    return #vim.diagnostic.get(0) == 6 and vim.diagnostic.get(0)[1].lnum > 500
  end)

  vim.cmd('edit ' .. folder .. '/B.hol')
  keep('a missing end in a second file', count(1))
  vim.cmd('edit ++ff=dos ' .. folder .. '/C.hol')
  keep('an error in a file of CRLF lines', count(1))
  vim.cmd('edit ' .. folder .. '/E.hol')
  vim.api.nvim_win_set_cursor(0, { 3, 0 })
  vim.cmd('doautocmd CursorMoved')
  vim.wait(seconds * 1000, function() return goals():match('x %+ y = z') ~= nil end, 20)
  results.notation = goals()
  vim.cmd('HolPlain')
  vim.wait(seconds * 1000, function() return goals():match('add x y = z') ~= nil end, 20)
  results.plain = goals()
  local names = {}
  for _, place in ipairs({ { 2, 0 }, { 3, 7 }, { 4, 3 } }) do
    table.insert(names, vim.fn.synIDattr(vim.fn.synID(place[1], place[2] + 1, 1), 'name'))
  end
  results.colours = names
  vim.cmd('edit ' .. folder .. '/D.hol')
  keep('the server has ended in the middle, and all is known', function()
    return #vim.diagnostic.get(0) == 1 and vim.diagnostic.get(0)[1].lnum == 40
  end)
end

-- Whether the lines of the buffer are these within the time.
local function become(lines)
  return vim.wait(seconds * 1000, function() return vim.deep_equal(vim.api.nvim_buf_get_lines(0, 0, -1, false), lines) end, 20)
end

-- A proof that is found, another name for its theorem, why none is found, and a search that is ended.
local function find()
  results.told = {}
  vim.notify = function(text) table.insert(results.told, text) end
  vim.api.nvim_echo = function(chunks) results.trying = results.trying or chunks[1][1]:match('%d s%)') and chunks[1][1] end
  vim.ui.select = function(items, _, choose)
    for at, item in ipairs(items) do
      if (item.action or item[2]).title == 'Find a proof' then
        choose(item, at)
      end
    end
  end
  local function search(goal, answered)
    vim.api.nvim_buf_set_lines(0, 0, -1, false, { 'g A `' .. goal .. '`;;' })
    vim.api.nvim_win_set_cursor(0, { 1, 2 })
    vim.wait(seconds * 1000, function() return goals():match('1 goal') ~= nil and goals():find(goal, 1, true) ~= nil end, 20)
    vim.lsp.buf.code_action()
    return vim.wait(seconds * 1000, answered, 20)
  end
  vim.cmd('edit ' .. folder .. '/F.hol')
  vim.cmd('HolGoals')
  search('x = x', function() return vim.api.nvim_buf_line_count(0) == 2 end)
  results.found = vim.api.nvim_buf_get_lines(0, 0, -1, false)
  vim.api.nvim_win_set_cursor(0, { 1, 2 })
  vim.lsp.buf.rename('BETTER')
  results.renamed = become({ 'g BETTER `x = x`;;', 'e REFL_TAC;;' })
  search('p ==> q', function() return #results.told > 0 end)
  local hard = '(!x. R x (f x)) /\\ (!x y z. R x y /\\ R y z ==> R x z) ==> (?x. R x x)'
  results.trying = nil
  search(hard, function()
    if results.trying then
      require('holls').cancel()
    end
    return #results.told > 1
  end)
end

local fine, failure = pcall(vim.env.BEGIN and begin or vim.env.FIND and find or run)
results.failure = not fine and tostring(failure) or nil
local out = io.open(vim.env.RESULTS, 'w')
out:write(vim.json and vim.json.encode(results) or vim.fn.json_encode(results))
out:close()
vim.cmd('qall!')
