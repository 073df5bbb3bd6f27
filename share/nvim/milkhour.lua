-- milkhour as a language server of Neovim (0.7 or newer): put this file into the folder `plugin` of your configuration.
local group = vim.api.nvim_create_augroup("milkhour", {})

local function is_named(names, filetype)
  vim.api.nvim_create_autocmd({ "BufNewFile", "BufRead" }, {
    group = group,
    pattern = names,
    callback = function(event)
      vim.bo[event.buf].filetype = filetype
    end,
  })
end

is_named({ "*.spl", "program" }, "spl")
is_named({ "*.proof", "proof" }, "splproof")

-- One server for the texts of a folder. Neovim 0.7 has no `vim.lsp.start`, which would look for it.
local servers = {}
local function attach(buffer)
  local folder = vim.fn.fnamemodify(vim.api.nvim_buf_get_name(buffer), ":p:h")
  local settings = { name = "milkhour", cmd = { "milkhour", "lsp" }, root_dir = folder }
  if vim.lsp.start then
    return vim.lsp.start(settings, { bufnr = buffer })
  end
  if not (servers[folder] and vim.lsp.get_client_by_id(servers[folder])) then
    servers[folder] = vim.lsp.start_client(settings)
  end
  vim.lsp.buf_attach_client(buffer, servers[folder])
end

vim.api.nvim_create_autocmd("FileType", {
  group = group,
  pattern = { "spl", "splproof" },
  callback = function(event)
    attach(event.buf)
  end,
})
