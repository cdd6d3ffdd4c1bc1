-- Steps through examples/tour.text by llbm: `:luafile examples/nvim-dap.lua`, then `:edit examples/tour.text`
-- and `:lua require("dap").continue()`.

local dap = require("dap")
local root = vim.fn.fnamemodify(debug.getinfo(1, "S").source:sub(2), ":p:h:h")

dap.adapters.llbm = {
  type = "executable",
  command = root .. "/llbm-tools",
  args = { "debug", "adapter" },
  options = { cwd = root },
}

dap.configurations.text = {
  {
    type = "llbm",
    request = "launch",
    name = "llbm: examples/tour.text",
    text = root .. "/examples/tour.text",
    sources = { source = root .. "/examples/tour.tree" },
    workers = 2,
    stopOnEntry = true,
    stopAtEnd = true,
  },
}
