-- Neovim opens a book with a fault, reads the diagnostic, mends it, goes to a declaration, formats and saves. Each step prints a line.
local function say(...)
  io.stdout:write(table.concat({ ... }, " ") .. "\n")
end

local function wait_for(count)
  vim.wait(30000, function()
    return #vim.diagnostic.get(0) == count
  end, 20)
  for _, it in ipairs(vim.diagnostic.get(0)) do
    local message = it.message:gsub("\n", "; ")
    say("fault", it.lnum + 1, it.col + 1, it.code, message)
  end
  say("faults", #vim.diagnostic.get(0))
end

vim.opt.runtimepath:prepend(os.getenv("EDITOR_FOLDER"))
vim.cmd("filetype plugin on")
require("tilugba").setup({ cmd = { os.getenv("DESK"), "language-server" } })
vim.cmd("silent edit book.txt")
say("filetype", vim.bo.filetype)
vim.wait(30000, function()
  return #vim.lsp.buf_get_clients(0) > 0
end, 20)
wait_for(1)

-- The comma in the number of the last line, behind a comment with characters of several bytes.
local last = vim.api.nvim_buf_line_count(0)
local line = vim.api.nvim_buf_get_lines(0, last - 1, last, true)[1]
local comma = line:find("12,500", 1, true) + 1
vim.api.nvim_buf_set_text(0, last - 1, comma, last - 1, comma + 1, { "" })
wait_for(0)

vim.api.nvim_win_set_cursor(0, { last, line:find("Acme", 1, true) - 1 })
vim.lsp.buf.definition()
vim.wait(30000, function()
  return vim.api.nvim_win_get_cursor(0)[1] ~= last
end, 20)
say("declared at", unpack(vim.api.nvim_win_get_cursor(0)))

if vim.lsp.buf.format then
  vim.lsp.buf.format({ timeout_ms = 30000 })
else
  vim.lsp.buf.formatting_sync(nil, 30000)
end
vim.cmd("silent write")
wait_for(1)
vim.cmd("qa!")
