-- Starts `raftbench lsp` for scripts of raftbench.

local M = {}

-- The program, where it isn't in the path: vim.g.raftbench_program, as for Vim's `:make`.
local function program()
  return vim.g.raftbench_program or 'raftbench'
end

-- Neovim 0.8 starts a server once and attaches each buffer to it; before, both are done here.
local client

-- Keys of the buffer alone: K shows the output of the directive below the cursor, with the cluster after it, gra chooses among actions, gd goes to
-- where a message is sent, grr lists all of its lines, grf formats the script, and grx runs a lens of the line. K, gra, grr and grx are Neovim's own
-- in later versions.
local function set_keys(buffer)
  local calls = {
    K = vim.lsp.buf.hover,
    gra = vim.lsp.buf.code_action,
    gd = vim.lsp.buf.definition,
    grr = vim.lsp.buf.references,
    grf = vim.lsp.buf.format or vim.lsp.buf.formatting,
    grx = vim.lsp.codelens.run,
  }
  for keys, call in pairs(calls) do
    vim.keymap.set('n', keys, function() call() end, { buffer = buffer })
  end
end

-- Makes the changes that accept an output.
local function accept(command, context)
  local served = vim.lsp.get_client_by_id(context.client_id)
  vim.lsp.util.apply_workspace_edit(command.arguments[1], served.offset_encoding)
end

-- Opens the page of a script at the directive on a line. What opens a file drops the place from its address, so a page of its own leads there.
local function open_page(command)
  local buffer, line = vim.uri_to_bufnr(command.arguments[1]), command.arguments[2]
  local name = vim.fn.fnamemodify(vim.api.nvim_buf_get_name(buffer), ':t')
  local folder, page = vim.fn.tempname(), {}
  vim.fn.mkdir(folder)
  vim.fn.writefile(vim.api.nvim_buf_get_lines(buffer, 0, -1, true), folder .. '/' .. name)
  vim.fn.jobstart({ program(), 'page', '--', name }, {
    cwd = folder,
    stdout_buffered = true,
    on_stdout = function(_, lines) page = lines end,
    on_exit = function(_, status)
      if status > 1 then return vim.notify('no page of ' .. name, vim.log.levels.ERROR) end
      vim.fn.writefile(page, folder .. '/page.html', 'b')
      vim.fn.writefile({ '<meta http-equiv="refresh" content="0; url=page.html#L' .. line .. '">' }, folder .. '/open.html');
      (vim.ui.open or vim.notify)(folder .. '/open.html')
    end,
  })
end

local commands = { ['raftbench.accept'] = accept, ['raftbench.openPage'] = open_page }

-- Lenses stand above directives whose output differs, and hints beside lines `----`, as far as Neovim has them.
local function show_beside(_, buffer)
  if vim.lsp.inlay_hint then vim.lsp.inlay_hint.enable(true, { bufnr = buffer }) end
  if vim.lsp.codelens.enable then return vim.lsp.codelens.enable(true, { bufnr = buffer }) end
  local function refresh() vim.lsp.codelens.refresh({ bufnr = buffer }) end
  vim.api.nvim_create_autocmd({ 'BufEnter', 'InsertLeave', 'TextChanged' }, { buffer = buffer, callback = refresh })
  refresh()
end

-- The server's settings are vim.g.raftbench_settings, as { softenLaterMismatches = false }.
local function server()
  local takes = vim.lsp.protocol.make_client_capabilities()
  takes.experimental = { commands = { commands = vim.tbl_keys(commands) } }
  return {
    name = 'raftbench',
    cmd = { program(), 'lsp' },
    root_dir = vim.fn.getcwd(),
    init_options = vim.g.raftbench_settings,
    capabilities = takes,
    commands = commands,
    on_attach = show_beside,
  }
end

function M.start(buffer)
  set_keys(buffer)
  if vim.lsp.start then
    return vim.lsp.start(server(), { bufnr = buffer })
  end
  if not client or vim.lsp.client_is_stopped(client) then
    client = vim.lsp.start_client(server())
  end
  if client then
    vim.lsp.buf_attach_client(buffer, client)
  end
  return client
end

-- What serves each script to play with, by its path.
local served = {}

-- Opens a script to play with: `raftbench-live`, or what vim.g.raftbench_live names, opens the browser, and ends with Neovim.
function M.play(file)
  local program = vim.g.raftbench_live or 'raftbench-live'
  if not served[file] then
    local job = vim.fn.jobstart({ program, file }, {
      on_exit = function() served[file] = nil end,
      on_stdout = function(_, lines) if lines[1] ~= '' then vim.notify(lines[1]) end end,
    })
    served[file] = job > 0 and job or nil
  end
  return served[file]
end

return M
