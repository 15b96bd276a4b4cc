-- Draws what ARCHITECTURE.md has of mermaid, by graphviz and mscgen: graphs with parts, labels and dotted edges, and sequences.

local function quoted(text) return '"' .. text:gsub('"', '\\"'):gsub("<br/>", "\\n") .. '"' end

-- A picture follows light and dark: a browser knows the page's colours by these names.
local function coloured(svg)
    svg = svg:gsub("^.-<svg", "<svg"):gsub('"white"', '"Canvas"'):gsub('"black"', '"currentColor"')
    return (svg:gsub("<text ([^>]*)>", function(attributes)
        if attributes:match("fill=") then return nil end
        return '<text fill="currentColor" ' .. attributes .. ">"
    end))
end

-- ---- graphs

-- A node as it is written: `name`, or `name["label"]`. Returns its name, and adds what declares its label.
local function node(lines, text)
    local name, label = text:match('^([%w_]+)%["(.*)"%]$')
    if not name then return text end
    lines:insert(name .. " [label=" .. quoted(label) .. "]")
    return name
end

local arrows = {
    { "^(.-) %-%- \"(.-)\" %-%-> (.+)$", "" },
    { "^(.-) %-%- (.-) %-%-> (.+)$", "" },
    { "^(.-) %-%. \"(.-)\" %.%-> (.+)$", ", style=dashed" },
    { "^(.-) ()%-%-> (.+)$", "" },
}

local function edge(lines, text)
    for _, arrow in ipairs(arrows) do
        local from, label, to = text:match(arrow[1])
        if from then
            local said = type(label) == "string" and label or ""
            local ends = node(lines, from) .. " -> " .. node(lines, to)
            lines:insert(ends .. " [label=" .. quoted(said) .. arrow[2] .. "]")
            return
        end
    end
    lines:insert(node(lines, text))
end

local function graph(text)
    local direction = text:match("^graph (%u%u)")
    local rank = direction == "LR" and "LR" or "TB"
    local lines = pandoc.List({
        "digraph { rankdir=" .. rank .. "; bgcolor=transparent; newrank=true",
        'node [shape=box, style=rounded, fontname="sans-serif", fontsize=11]; edge [fontname="sans-serif", fontsize=10]',
    })
    for line in text:gmatch("[^\n]+") do
        line = line:match("^%s*(.-)%s*$")
        local part, label = line:match("^subgraph (%S+) %[(.*)%]$")
        if part then
            lines:insert("subgraph cluster_" .. part .. " { fontname=\"sans-serif\"; fontsize=11; label=" .. quoted(label))
        elseif line == "end" then
            lines:insert("}")
        elseif not line:match("^graph ") then
            edge(lines, line)
        end
    end
    lines:insert("}")
    return pandoc.pipe("dot", { "-Tsvg" }, table.concat(lines, "\n"))
end

-- ---- sequences

local function sequence(text)
    local names, messages = {}, {}
    for line in text:gmatch("[^\n]+") do
        line = line:match("^%s*(.-)%s*$")
        local name, label = line:match("^participant (%S+) as (.+)$")
        name = name or line:match("^participant (%S+)$")
        local from, arrow, to, said = line:match("^(%w+)(%-%-?>>)(%w+): (.+)$")
        local over, note = line:match("^Note over (%w+): (.+)$")
        if name then
            names[#names + 1] = name .. " [label=" .. quoted(label or name) .. "]"
        elseif from then
            messages[#messages + 1] = from .. (arrow == "->>" and "=>" or ">>") .. to .. " [label=" .. quoted(said) .. "]"
        elseif over then
            messages[#messages + 1] = over .. " note " .. over .. " [label=" .. quoted(note) .. "]"
        end
    end
    local chart = 'msc { width="1100";\n' .. table.concat(names, ",") .. ";\n" .. table.concat(messages, ";\n") .. ";\n}\n"
    return pandoc.pipe("mscgen", { "-T", "svg", "-o", "-" }, chart)
end

local function drawn(text)
    return coloured(text:match("^sequenceDiagram") and sequence(text) or graph(text))
end

return { drawn = drawn }
