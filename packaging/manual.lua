-- For pandoc: a page of docs/ as a page of the manual. Of its sections stay those that `sections` names, parted by bars. A table becomes a list by
-- its first column, and a link its text; a list of contents goes.
local utils = pandoc.utils

function Link(link) return link.content end

-- The cells of a row after the first, each after the head of its column where there are several.
local function told(row, heads)
  local lines = pandoc.List()
  for column = 2, #row do
    local cell = utils.blocks_to_inlines(row[column])
    if #cell > 0 then
      if #lines > 0 then lines:extend({ pandoc.Str ".", pandoc.Space() }) end
      if #row > 2 then
        lines:extend(utils.blocks_to_inlines(heads[column]))
        lines:extend({ pandoc.Str ":", pandoc.Space() })
      end
      lines:extend(cell)
    end
  end
  return { pandoc.Plain(lines) }
end

function Para(it)
  if utils.stringify(it):match "^Contents:" then return {} end
end

function Table(it)
  local simple, items = utils.to_simple_table(it), {}
  for at, row in ipairs(simple.rows) do items[at] = { utils.blocks_to_inlines(row[1]), { told(row, simple.headers) } } end
  return pandoc.DefinitionList(items)
end

function Pandoc(document)
  if not document.meta.sections then return document end
  local lacking, blocks, stays = {}, pandoc.List(), false
  for name in utils.stringify(document.meta.sections):gmatch "[^|]+" do lacking[name] = true end
  for _, block in ipairs(document.blocks) do
    if block.t == "Header" and block.level <= 2 then
      local name = utils.stringify(block)
      stays, lacking[name] = lacking[name], nil
    end
    if stays then blocks:insert(block) end
  end
  if next(lacking) then error("no section is called " .. next(lacking)) end
  return pandoc.Pandoc(blocks, document.meta)
end
