-- Neovim's client for `autolock lsp`. With no proved program yet: `let g:autolock = '/the/path/autolock --unproved'` before that.
local function start(buffer)
  local command = vim.split(vim.g.autolock or 'autolock', ' ', { trimempty = true })
  table.insert(command, 'lsp')
  local config = {
    name = 'autolock',
    cmd = command,
    root_dir = vim.fn.fnamemodify(vim.api.nvim_buf_get_name(buffer), ':p:h'),
  }
  if vim.lsp.start then
    vim.lsp.start(config, { bufnr = buffer })
    return
  end
  -- (before version 0.8; the client that stands is taken)
  for _, client in pairs(vim.lsp.get_active_clients()) do
    if client.name == config.name then
      vim.lsp.buf_attach_client(buffer, client.id)
      return
    end
  end
  vim.lsp.buf_attach_client(buffer, vim.lsp.start_client(config))
end

vim.api.nvim_create_autocmd('FileType', {
  pattern = 'autolock',
  callback = function(found)
    start(found.buf)
  end,
})
