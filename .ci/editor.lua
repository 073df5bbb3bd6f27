-- What `.ci/editor` has Neovim do: each line of the file `told` is the name of a try and what came of it, in JSON.
local lines = {}
local wait = 1000 * tonumber(vim.env.EDITOR_WAIT)

local function tell(name, found)
  table.insert(lines, vim.json.encode({ name, found == nil and vim.NIL or found }))
  vim.fn.writefile(lines, "told")
end

local kinds = { "error", "warning", "information", "hint" }

-- The lines, columns and kinds of what is told of a buffer, counted from 1, as soon as it is what is waited for, and else after a while.
local function places(buffer, is_wanted)
  local found
  vim.wait(wait, function()
    found = vim.diagnostic.get(buffer)
    return is_wanted(found)
  end, 50)
  return vim.tbl_map(function(it)
    return { it.lnum + 1, it.col + 1, kinds[it.severity] }
  end, found)
end

local function some(found)
  return #found > 0
end

local function none(found)
  return #found == 0
end

local function ask(buffer, method, parameters)
  parameters.textDocument = { uri = vim.uri_from_bufnr(buffer) }
  local answers = vim.lsp.buf_request_sync(buffer, method, parameters, wait) or {}
  for _, it in pairs(answers) do
    return it.result
  end
end

local function at(buffer, pattern)
  for number, line in ipairs(vim.api.nvim_buf_get_lines(buffer, 0, -1, false)) do
    local column = line:find(pattern)
    if column then
      return { line = number - 1, character = column - 1 }
    end
  end
end

local function play()
  vim.cmd("edit proof")
  local proof = vim.api.nvim_get_current_buf()
  tell("kind of the proof", vim.bo.filetype)
  tell("a fault", places(proof, some))

  -- The name is mended as by hand, so the server is told of a piece of the text or of all of it, as it asked for.
  vim.cmd("silent %s/m44/m4/")
  tell("mended", places(proof, none))
  vim.cmd("silent write")
  tell("saved, open conditions", places(proof, some))

  vim.cmd("edit program")
  local program = vim.api.nvim_get_current_buf()
  tell("kind of the program", vim.bo.filetype)
  local hover = ask(program, "textDocument/hover", { position = at(program, "y2, s%) :=") })
  tell("hover", hover and hover.contents.value)
  local declared = ask(program, "textDocument/definition", { position = at(program, "y2, s%) :=") })
  tell("definition", declared and declared.range.start.line + 1)
  local names = ask(program, "textDocument/completion", { position = at(program, "y2, s%) :=") }) or {}
  tell("completion", vim.tbl_map(function(it)
    return it.label
  end, names.items or names))

  vim.api.nvim_buf_set_lines(program, -1, -1, false, { "% the end   " })
  local format = vim.lsp.buf.format or vim.lsp.buf.formatting_sync
  format({ timeout_ms = wait }, wait)
  vim.cmd("silent write")
  tell("formatted", vim.api.nvim_buf_get_lines(program, 0, -1, false))

  vim.cmd("silent buffer proof")
  vim.api.nvim_buf_set_lines(proof, 0, -1, false, vim.fn.readfile("whole"))
  vim.cmd("silent write")
  tell("proved", places(proof, none))
  tell("servers", #vim.lsp.get_active_clients())
end

local ended, fault = pcall(play)
tell("the end", ended and "all was played" or fault)
vim.cmd("qall!")
