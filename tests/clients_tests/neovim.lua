-- Neovim as a client, headless: what it shows of a robot with a fault, and of a match. The answers go into the file `out`.
local out = {}
local function wait(what, is_so)
  if not vim.wait(120000, is_so, 20) then out[what] = 'nothing came' end
end
local function ask(method, params)
  local answers = vim.lsp.buf_request_sync(0, method, params, 120000) or {}
  for _, it in pairs(answers) do return it.result or it.error.message end
end
local function at(line, column)
  return { textDocument = { uri = vim.uri_from_bufnr(0) }, position = { line = line, character = column } }
end

vim.cmd('edit robots/mine.r')
wait('client', function() return #vim.lsp.buf_get_clients(0) > 0 end)
wait('fault', function() return #vim.diagnostic.get(0) > 0 end)
local fault = vim.diagnostic.get(0)[1]
out.fault = { fault.lnum, fault.col, fault.end_col, vim.split(fault.message, '\n')[1], fault.code or fault.user_data.lsp.code }
-- typing: the answer has the names of the function although the source has a fault
vim.api.nvim_buf_set_lines(0, 3, 3, false, { '  sc' })
local items = ask('textDocument/completion', at(3, 4)).items
for _, it in ipairs(items) do
  if it.label == 'scan' then out.scan = it.detail end
  if it.label == 'angle' then out.angle = it.detail end
end
vim.api.nvim_buf_set_lines(0, 3, 4, false, { '  scan(' })
local help = ask('textDocument/signatureHelp', at(3, 7))
out.help = { help.signatures[1].label, help.activeParameter }
vim.api.nvim_buf_set_lines(0, 3, 4, false, {})
out.hover = vim.split(ask('textDocument/hover', at(4, 15)).contents.value, '\n')[1]
local definition = ask('textDocument/definition', at(4, 15))
out.definition = { definition.range.start.line, definition.range.start.character }
-- the fault is mended by its fix, and the variable gets another name
local fixes = ask('textDocument/codeAction', { textDocument = { uri = vim.uri_from_bufnr(0) }, context = { diagnostics = {} },
  range = { start = { line = 0, character = 0 }, ['end'] = { line = 9, character = 0 } } })
vim.lsp.util.apply_workspace_edit(fixes[1].edit, 'utf-16')
wait('mended', function() return #vim.diagnostic.get(0) == 0 end)
out.refused = ask('textDocument/rename', vim.tbl_extend('force', at(2, 3), { newName = 'for' }))
vim.lsp.util.apply_workspace_edit(ask('textDocument/rename', vim.tbl_extend('force', at(2, 3), { newName = 'heading' })), 'utf-16')
out.text = vim.api.nvim_buf_get_lines(0, 0, -1, false)
vim.cmd('write')

-- a match: a breakpoint with a condition, a step over, a step back
local crobots = require('crobots')
vim.fn.cursor(5, 1)
crobots.toggle('heading == 20')
crobots.told = nil
local function told(what)
  wait(what, function() return crobots.told ~= nil end)
  out[what] = crobots.told
  crobots.told = nil
end
crobots.debug({ 'robots/other.r' }, {})
told('entry')
crobots.move('continue')
told('stop')
crobots.move('next')
told('next')
crobots.move('stepBack')
told('back')
crobots.print('heading * 2')
told('print')
crobots.move('stepIn')
told('into')
crobots.move('stepOut')
told('out')
crobots.move('reverseContinue')
told('reverse')
crobots.move('reverseContinue')
told('start')
vim.fn.writefile({ vim.json.encode(out) }, 'out')
vim.cmd('qall!')
