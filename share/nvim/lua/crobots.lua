-- Robots in Neovim, from 0.7 on: the language server crobots-lsp by Neovim's own client, and a small client of the debug adapter
-- crobots-dap. `require('crobots').setup({ profile = 2 })` sets the language profile; all of it is in docs/editors.md.
local M = { settings = { profile = 1, inlayHints = false }, client = nil }

-- The language server.

local function attached(_, buffer)
  local function map(keys, action)
    vim.keymap.set('n', keys, action, { buffer = buffer, silent = true })
  end
  vim.bo[buffer].omnifunc = 'v:lua.vim.lsp.omnifunc'
  map('gd', vim.lsp.buf.definition)
  map('gr', vim.lsp.buf.references)
  map('K', vim.lsp.buf.hover)
  map('<leader>rn', vim.lsp.buf.rename)
  map('<leader>ca', vim.lsp.buf.code_action)
  map('[d', vim.diagnostic.goto_prev)
  map(']d', vim.diagnostic.goto_next)
  vim.keymap.set('i', '<C-k>', vim.lsp.buf.signature_help, { buffer = buffer })
end

function M.attach(buffer)
  if not M.client then
    M.client = vim.lsp.start_client({
      name = 'crobots',
      cmd = { 'crobots-lsp' },
      root_dir = vim.fn.getcwd(),
      init_options = M.settings,
      flags = { debounce_text_changes = 50 },
      on_attach = attached,
      on_exit = function() M.client = nil end,
    })
  end
  if M.client then
    vim.lsp.buf_attach_client(buffer, M.client)
  end
end

local function command(name)
  vim.lsp.buf.execute_command({ command = name, arguments = { vim.uri_from_bufnr(0) } })
end

-- The debug adapter.

local D = { breakpoints = {}, number = 0, waits = {}, rest = '' }
vim.fn.sign_define('CrobotsStop', { text = '●', texthl = 'Error' })
vim.fn.sign_define('CrobotsHere', { text = '▶', texthl = 'Search', linehl = 'CursorLine' })

local function ask(name, arguments, act)
  if not D.input then
    return vim.notify('crobots: no match is launched', vim.log.levels.WARN)
  end
  D.number = D.number + 1
  D.waits[D.number] = act or false
  -- an empty table is a list to the encoder
  arguments = next(arguments) and arguments or vim.empty_dict()
  local body = vim.json.encode({ seq = D.number, type = 'request', command = name, arguments = arguments })
  D.input:write('Content-Length: ' .. #body .. '\r\n\r\n' .. body)
end

local function show(frame)
  vim.cmd('edit ' .. vim.fn.fnameescape(frame.source.path))
  vim.fn.sign_unplace('crobots-here')
  vim.fn.sign_place(0, 'crobots-here', 'CrobotsHere', vim.fn.bufnr(), { lnum = frame.line, priority = 20 })
  pcall(vim.api.nvim_win_set_cursor, 0, { frame.line, math.max(frame.column - 1, 0) })
end

-- Shows where the watched robot is, and the variables of its function.
local function stopped(event)
  D.thread = event.threadId
  ask('stackTrace', { threadId = event.threadId }, function(answer)
    local frame = answer.stackFrames[1]
    D.frame = frame.id
    show(frame)
    ask('variables', { variablesReference = frame.id + 1 }, function(found)
      local told = { event.text .. ', ' .. event.reason .. ', ' .. frame.name .. ' line ' .. frame.line .. ':' }
      for _, it in ipairs(found.variables) do
        table.insert(told, it.name .. ' = ' .. it.value)
      end
      M.told = table.concat(told, ' ')
      vim.notify(M.told)
    end)
  end)
end

local function end_match()
  vim.fn.sign_unplace('crobots-here')
  if D.input then
    D.input:close()
    D.input = nil
  end
end

local events = {
  initialized = function()
    for path, lines in pairs(D.breakpoints) do
      M.send_breakpoints(path, lines)
    end
    ask('configurationDone', {})
  end,
  stopped = stopped,
  output = function(it) vim.notify((it.output:gsub('\n$', ''))) end,
  terminated = function() ask('disconnect', {}) end_match() end,
}

local function take(message)
  if message.type == 'event' then
    local act = events[message.event]
    if act then act(message.body) end
  elseif message.success == false then
    vim.notify('crobots: ' .. message.message, vim.log.levels.ERROR)
  elseif D.waits[message.request_seq] then
    D.waits[message.request_seq](message.body)
  end
end

-- Takes what the adapter wrote apart into messages.
local function read(_, piece)
  D.rest = D.rest .. (piece or '')
  while true do
    local first, last, length = D.rest:find('Content%-Length: (%d+)\r\n\r\n')
    if not first or #D.rest < last + tonumber(length) then return end
    local body = D.rest:sub(last + 1, last + tonumber(length))
    D.rest = D.rest:sub(last + tonumber(length) + 1)
    vim.schedule(function() take(vim.json.decode(body)) end)
  end
end

function M.send_breakpoints(path, lines)
  local asked = {}
  for line, condition in pairs(lines) do
    table.insert(asked, { line = line, condition = condition ~= '' and condition or nil })
  end
  ask('setBreakpoints', { source = { path = path }, breakpoints = asked }, function(answer)
    vim.fn.sign_unplace('crobots-stops', { buffer = vim.fn.bufnr(path) })
    for _, it in ipairs(answer.breakpoints) do
      vim.fn.sign_place(0, 'crobots-stops', 'CrobotsStop', vim.fn.bufnr(path), { lnum = it.line, priority = 15 })
    end
  end)
end

-- Sets or clears the breakpoint of the cursor's line, with a condition if one is given.
function M.toggle(condition)
  local path, line = vim.fn.expand('%:p'), vim.fn.line('.')
  local lines = D.breakpoints[path] or {}
  D.breakpoints[path] = lines
  if lines[line] then lines[line] = nil else lines[line] = condition or '' end
  if D.input then
    return M.send_breakpoints(path, lines)
  end
  vim.fn.sign_unplace('crobots-stops', { buffer = '%' })
  for number in pairs(lines) do
    vim.fn.sign_place(0, 'crobots-stops', 'CrobotsStop', '%', { lnum = number, priority = 15 })
  end
end

-- Launches a match of the buffer's robot against others.
function M.debug(others, options)
  end_match()
  local output
  D.input, output, D.rest, D.waits = vim.loop.new_pipe(), vim.loop.new_pipe(), '', {}
  D.process = vim.loop.spawn('crobots-dap', { stdio = { D.input, output, nil } }, function() D.process:close() end)
  output:read_start(read)
  local robots = { vim.fn.expand('%:p') }
  for _, other in ipairs(others) do
    table.insert(robots, vim.fn.fnamemodify(other, ':p'))
  end
  ask('initialize', { adapterID = 'crobots' }, function()
    ask('launch', vim.tbl_extend('force', { robots = robots, profile = M.settings.profile }, options or {}))
  end)
end

function M.move(name)
  ask(name, { threadId = D.thread or 1 })
end

function M.print(expression)
  ask('evaluate', { expression = expression, frameId = D.frame }, function(answer)
    M.told = expression .. ' = ' .. answer.result
    vim.notify(M.told)
  end)
end

-- The commands.

local moves = { Step = 'stepIn', Next = 'next', Out = 'stepOut', Back = 'stepBack', Continue = 'continue', Reverse = 'reverseContinue' }

local function commands()
  local define = vim.api.nvim_create_user_command
  for word, name in pairs(moves) do
    define('Crobots' .. word, function() M.move(name) end, {})
  end
  define('CrobotsBreak', function(it) M.toggle(it.args) end, { nargs = '*' })
  define('CrobotsDebug', function(it) M.debug(it.fargs) end, { nargs = '*', complete = 'file' })
  define('CrobotsPrint', function(it) M.print(it.args) end, { nargs = '+' })
  define('CrobotsPlay', function() command('crobots.play') end, {})
  define('CrobotsReplay', function() command('crobots.replay') end, {})
end

function M.setup(settings)
  M.settings = vim.tbl_extend('force', M.settings, settings or {})
  commands()
  vim.api.nvim_create_autocmd('FileType', { pattern = 'crobots', callback = function(it) M.attach(it.buf) end })
end

return M
