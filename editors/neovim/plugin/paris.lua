-- For Neovim from 0.7 on: starts `paris lsp` for scripts, and draws beside the visible lines what they give.
-- `vim.g.paris_command` may say another command, such as { "/opt/paris/paris", "lsp", "--workers", "4" }, or one with --join.
if vim.g.loaded_paris_server then
  return
end
vim.g.loaded_paris_server = true

local space = vim.api.nvim_create_namespace("paris")
local carets = vim.api.nvim_create_namespace("paris-carets")
local method = "textDocument/inlayHint"
local caret_pause = 100

-- Clients have methods from 0.11 on, and functions before.
local function request(client, ...)
  if vim.fn.has("nvim-0.11") == 1 then
    client:request(...)
  else
    client.request(...)
  end
end

-- Draws the values of the lines of a window. A later answer takes the place of an earlier one.
local function draw(client, buffer, window)
  local first, last = vim.fn.line("w0", window) - 1, vim.fn.line("w$", window)
  request(client, method, {
    textDocument = { uri = vim.uri_from_bufnr(buffer) },
    range = { start = { line = first, character = 0 }, ["end"] = { line = last, character = 0 } },
  }, function(failed, hints)
    if failed or not vim.api.nvim_buf_is_loaded(buffer) then
      return
    end
    vim.api.nvim_buf_clear_namespace(buffer, space, 0, -1)
    for _, hint in ipairs(hints or {}) do
      local text = { { "  " .. hint.label, "Comment" } }
      pcall(vim.api.nvim_buf_set_extmark, buffer, space, hint.position.line, 0, { virt_text = text, hl_mode = "combine" })
    end
  end, buffer)
end

local function draw_all(client, buffer)
  for _, window in ipairs(vim.fn.win_findbuf(buffer)) do
    draw(client, buffer, window)
  end
end

local function client_of(buffer)
  local number = vim.b[buffer].paris_client
  return number and vim.lsp.get_client_by_id(number)
end

-- Before the server has answered that it is there, nothing is asked of it.
local function begun_client_of(buffer)
  local client = client_of(buffer)
  return client and client.initialized and client
end

-- Each update of the server: its words are for the status line, as in
--   set statusline=%f\ %m\ %{get(b:,'paris_ran','')}
vim.lsp.handlers["$/paris/ran"] = function(_, result, context)
  local buffer = vim.uri_to_bufnr(result.uri)
  vim.b[buffer].paris_ran = result.text
  draw_all(vim.lsp.get_client_by_id(context.client_id), buffer)
  vim.cmd("redrawstatus")
end

-- Where others are in a program of several people, which `paris lsp --join` tells: their names, and what they type.
local function draw_caret(buffer, caret)
  local line = vim.api.nvim_buf_get_lines(buffer, caret.line, caret.line + 1, false)[1]
  if not line then
    return
  end
  local typed = caret.text ~= "" and ": " .. caret.text or ""
  local mark = { virt_text = { { "  ▏" .. caret.name .. typed, "Special" } }, hl_mode = "combine" }
  local known, column = pcall(vim.str_byteindex, line, caret.character, true)
  local letter = known and line:byte(column + 1)
  -- The letter at the caret is marked too, where it is of one byte.
  if letter and letter < 128 then
    mark.end_row, mark.end_col, mark.hl_group = caret.line, column + 1, "IncSearch"
  end
  pcall(vim.api.nvim_buf_set_extmark, buffer, carets, caret.line, mark.end_col and column or 0, mark)
end

vim.lsp.handlers["$/paris/carets"] = function(_, result)
  local buffer = vim.uri_to_bufnr(result.uri)
  if vim.api.nvim_buf_is_loaded(buffer) then
    vim.api.nvim_buf_clear_namespace(buffer, carets, 0, -1)
    for _, caret in ipairs(result.carets) do
      draw_caret(buffer, caret)
    end
  end
end

local function wants_carets(client)
  local said = (client.server_capabilities or {}).experimental
  return type(said) == "table" and said.parisCarets == true
end

local function notify(client, ...)
  if vim.fn.has("nvim-0.11") == 1 then
    client:notify(...)
  else
    client.notify(...)
  end
end

-- Tells where the cursor is, once it rests for a moment.
local is_told = true
local function tell_caret(buffer)
  local client = begun_client_of(buffer)
  if not is_told or not client or not wants_carets(client) then
    return
  end
  is_told = false
  vim.defer_fn(function()
    is_told = true
    if vim.api.nvim_get_current_buf() == buffer and begun_client_of(buffer) then
      local place = vim.lsp.util.make_position_params(0, "utf-16")
      notify(client, "$/paris/caret", { textDocument = place.textDocument, position = place.position })
    end
  end, caret_pause)
end

local function map(buffer, key, act)
  vim.keymap.set("n", key, act, { buffer = buffer })
end

local function attach(buffer)
  if client_of(buffer) then
    return
  end
  local settings = {
    name = "paris",
    cmd = vim.g.paris_command or { "paris", "lsp" },
    root_dir = vim.fn.getcwd(),
    flags = { debounce_text_changes = 20 },
  }
  local number
  if vim.lsp.start then
    number = vim.lsp.start(settings, { bufnr = buffer })
  else
    number = vim.lsp.start_client(settings)
    if number then
      vim.lsp.buf_attach_client(buffer, number)
    end
  end
  vim.b[buffer].paris_client = number
  map(buffer, "K", vim.lsp.buf.hover)
  map(buffer, "gd", vim.lsp.buf.definition)
  map(buffer, "gD", vim.lsp.buf.declaration)
  map(buffer, "gr", vim.lsp.buf.references)
  map(buffer, "ga", vim.lsp.buf.code_action)
  map(buffer, "<F2>", function()
    vim.lsp.buf.rename()
  end)
  vim.bo[buffer].omnifunc = "v:lua.vim.lsp.omnifunc"
end

local group = vim.api.nvim_create_augroup("paris", {})
vim.api.nvim_create_autocmd("FileType", {
  group = group,
  pattern = "paris",
  callback = function(at)
    attach(at.buf)
  end,
})
vim.api.nvim_create_autocmd({ "WinScrolled", "BufWinEnter" }, {
  group = group,
  pattern = "*.paris",
  callback = function(at)
    local client = begun_client_of(at.buf)
    if client then
      draw_all(client, at.buf)
    end
  end,
})
vim.api.nvim_create_autocmd({ "CursorMoved", "CursorMovedI" }, {
  group = group,
  pattern = "*.paris",
  callback = function(at)
    tell_caret(at.buf)
  end,
})
