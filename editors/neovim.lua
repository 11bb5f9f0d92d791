-- Neovim: `fanquber lsp` for *.abnf and *.peg. Put this into init.lua, or into a file in plugin/ beside it.
local client
vim.api.nvim_create_autocmd({ "BufNewFile", "BufRead" }, {
  pattern = { "*.abnf", "*.peg" },
  callback = function(event)
    local config = { name = "fanquber", cmd = { "fanquber", "lsp" }, root_dir = vim.fn.getcwd() }
    if vim.lsp.start then -- from version 0.8 on
      vim.lsp.start(config)
    else
      client = client or vim.lsp.start_client(config)
      vim.lsp.buf_attach_client(event.buf, client)
    end
  end,
})
