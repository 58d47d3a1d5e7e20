-- STIL texts in Neovim (0.7 or later): the language server of stilfloor. Put this file into ~/.config/nvim/plugin/.
-- vim.g.stilfloor may hold the command's words where `stilfloor` isn't on the path: vim.g.stilfloor = {'/where/floor/stilfloor'}
local group = vim.api.nvim_create_augroup('stilfloor', {})

vim.api.nvim_create_autocmd({ 'BufRead', 'BufNewFile' }, {
  group = group,
  pattern = '*.stil',
  callback = function() vim.bo.filetype = 'stil' end,
})

vim.api.nvim_create_autocmd('FileType', {
  group = group,
  pattern = 'stil',
  callback = function(event)
    local command = vim.list_extend({ unpack(vim.g.stilfloor or { 'stilfloor' }) }, { 'server' })
    -- (one server serves all texts)
    if not StilfloorClient or not vim.lsp.get_client_by_id(StilfloorClient) then
      StilfloorClient = vim.lsp.start_client({ name = 'stilfloor', cmd = command, root_dir = vim.fn.getcwd() })
    end
    vim.lsp.buf_attach_client(event.buf, StilfloorClient)
    -- (K says what a name is, and gd goes to where it is declared; <C-x><C-o> completes)
    vim.bo[event.buf].omnifunc = 'v:lua.vim.lsp.omnifunc'
    vim.keymap.set('n', 'K', vim.lsp.buf.hover, { buffer = event.buf })
    vim.keymap.set('n', 'gd', vim.lsp.buf.definition, { buffer = event.buf })
  end,
})
