-- Each buffer with a script is served. What a script is, editors/vim tells.

vim.api.nvim_create_autocmd('FileType', {
  pattern = 'raftbench',
  callback = function(event)
    require('raftbench').start(event.buf)
  end,
})

-- Opens the script of the buffer to play with, in a browser. What is written here shows there when it is saved.
vim.api.nvim_create_user_command('RaftbenchLive', function()
  require('raftbench').play(vim.api.nvim_buf_get_name(0))
end, { desc = 'Play with this script' })
