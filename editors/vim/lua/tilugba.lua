-- The language server of Tilugba in Neovim 0.7 and newer: `require("tilugba").setup()` in init.lua, after this folder is in the
-- runtimepath. `setup { cmd = { ".../tilugba-desk", "language-server" } }` names another command.
local M = {}

local function root(path)
  return vim.fn.fnamemodify(path, ":p:h")
end

-- Attaches a buffer to the server, which is started once.
function M.attach(buffer, options)
  local config = {
    name = "tilugba",
    cmd = options.cmd or { "tilugba-desk", "language-server" },
    root_dir = root(vim.api.nvim_buf_get_name(buffer)),
  }
  if vim.lsp.start then
    vim.lsp.start(config, { bufnr = buffer })
    return
  end
  if not M.client or not vim.lsp.get_client_by_id(M.client) then
    M.client = vim.lsp.start_client(config)
  end
  if M.client then
    vim.lsp.buf_attach_client(buffer, M.client)
  end
end

function M.setup(options)
  local given = options or {}
  vim.api.nvim_create_autocmd("FileType", {
    pattern = "tilugba",
    callback = function(event)
      M.attach(event.buf, given)
      vim.bo[event.buf].omnifunc = "v:lua.vim.lsp.omnifunc"
    end,
  })
end

return M
