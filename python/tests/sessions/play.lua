-- What a user does in Neovim while a session is recorded: the file is open, and each request waits for its answer.
local patience = 20000
local space = vim.api.nvim_create_namespace("paris")

local function is_drawn(wanted)
  for _, mark in ipairs(vim.api.nvim_buf_get_extmarks(0, space, 0, -1, { details = true })) do
    if mark[4].virt_text[1][1]:find(wanted, 1, true) then
      return true
    end
  end
  return false
end

local function until_drawn(wanted)
  assert(vim.wait(patience, function() return is_drawn(wanted) end, 20), "nothing has " .. wanted)
end

-- Asks by a function, and waits for the answer.
local function ask(act)
  act()
  vim.wait(100)
  local client = vim.lsp.get_active_clients()[1]
  assert(vim.wait(patience, function() return next(client.requests) == nil end, 20), "no answer")
end

local function ask_at(line, column, act)
  vim.api.nvim_win_set_cursor(0, { line, column })
  ask(act)
end

local function line_of(number)
  return vim.api.nvim_win_get_cursor(0)[1] == number
end

local function replace_last(text)
  vim.api.nvim_buf_set_lines(0, 9, 10, true, { text })
end

-- Values, and where they come from.
local function look()
  until_drawn("c 4 8 12 16")
  vim.api.nvim_buf_set_text(0, 5, 16, 5, 17, { "5" })
  until_drawn("c 4 8 12 20*")
  ask_at(8, 13, vim.lsp.buf.hover)
  ask_at(8, 13, vim.lsp.buf.document_highlight)
  ask_at(8, 13, vim.lsp.buf.references)
  vim.cmd("cclose")
  ask_at(8, 13, vim.lsp.buf.declaration)
  assert(line_of(4), "the declaration")
  ask_at(8, 13, vim.lsp.buf.definition)
  assert(line_of(7), "the row that a value comes from")
end

-- What is wrong, and what mends it.
local function mend()
  vim.ui.select = function(items, _, take)
    take(items[1], 1)
  end
  ask_at(10, 0, vim.lsp.buf.code_action)
  until_drawn("a 2 4 6 10")
  ask(vim.lsp.buf.document_symbol)
  vim.cmd("cclose")
end

-- A line that is typed, a name that becomes another, and a save.
local function type()
  vim.o.virtualedit = "onemore"
  replace_last("u-add-3-1L a ")
  vim.wait(200)
  ask_at(10, 13, function() vim.lsp.omnifunc(1, "") end)
  replace_last("u-add-3-1L a c c 8")
  until_drawn("a 8* 16* 24* 40*")
  ask_at(8, 13, function() vim.lsp.buf.rename("twice") end)
  until_drawn("twice 2 4 6 10")
  vim.cmd("silent write")
  vim.wait(500)
end

local is_well, why = pcall(function()
  look()
  mend()
  type()
end)
if not is_well then
  print(why)
  vim.cmd("cquit")
end
