-- Links of documents lead to their pages, names of documents are links, wide tables scroll, and diagrams are drawn.

local top, document, pages = os.getenv("TOP"), os.getenv("DOCUMENT"), os.getenv("PAGES")
local diagrams = dofile("tools/html/diagrams.lua")

local function folder_of(path) return path:match("^(.*)/[^/]*$") or "." end

local function is_there(path)
    local file = io.open(path, "rb")
    if file then file:close() end
    return file ~= nil
end

-- A file that a page shows or links is named in a list: tools/html.sh puts it beside the pages, at the same place.
local function list(path)
    local listed = assert(io.open(pages .. "/linked", "a"))
    listed:write(folder_of(document) .. "/" .. path .. "\n")
    listed:close()
end

local function target_of(target)
    if target:match("^%a+:") or target:match("^#") then return target end
    local path, place = target:match("^([^#]*)(.*)$")
    if path:match("%.md$") then return path:gsub("%.md$", ".html") .. place end
    list(path)
    return target
end

function Link(link)
    link.target = target_of(link.target)
    return link
end

function Image(image)
    list(image.src)
    return image
end

-- A document that is named by its path from the top.
function Code(code)
    if not code.text:match("^[%w_/]+%.md$") or not is_there(code.text) then return nil end
    return pandoc.Link(code, top .. code.text:gsub("%.md$", ".html"))
end

function Table(shown)
    return pandoc.Div(shown, { class = "wide" })
end

function CodeBlock(block)
    if not block.classes:includes("mermaid") then return nil end
    return pandoc.RawBlock("html", "<figure>" .. diagrams.drawn(block.text) .. "</figure>")
end

-- Links first: what names a document within a link stays as it is.
return {
    { Link = Link, Image = Image, Table = Table, CodeBlock = CodeBlock },
    { Code = Code },
}
