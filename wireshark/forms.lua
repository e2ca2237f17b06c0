-- ---- Forms: what the tables say of bytes. What doesn't follow its form is shown raw, as in the JSON and the outlines of tcshow.

local tc = Proto("tc", "Linux Traffic Control")
local NESTED, TYPE, DEEPEST = 0x8000, 0x4000, 16 -- NLA_F_NESTED; above the bits of an attribute's type; so deep forms nest, what is deeper is raw
local WIDTHS = {u8 = 1, u16 = 2, u32 = 4, u64 = 8, s8 = 1, s16 = 2, s32 = 4, s64 = 8, be16 = 2, be32 = 4, be64 = 8, handle = 4, mac = 6, ipv4 = 4, ipv6 = 16,
  flag = 0, bool = 1}
local SORTS = {u8 = "uint8", u16 = "uint16", u32 = "uint32", u64 = "uint64", s8 = "int8", s16 = "int16", s32 = "int32", s64 = "int64", be16 = "uint16",
  be32 = "uint32", be64 = "uint64", mac = "ether", ipv4 = "ipv4", ipv6 = "ipv6", handle = "string", text = "string", bare = "string", kind = "string",
  hex = "bytes", bytes = "bytes", pad = "bytes", flag = "bool", bool = "bool", frame = "framenum"}

local X = {form = {"Bytes that don't follow their form", "MALFORMED", "ERROR"}, cut = {"Message is cut", "MALFORMED", "ERROR"},
  unknown = {"Not in the tables", "UNDECODED", "NOTE"}, refused = {"Refused", "RESPONSE_CODE", "ERROR"}, warning = {"Warning", "RESPONSE_CODE", "WARN"}}
for name, it in pairs(X) do X[name] = ProtoExpert.new("tc.expert." .. name, it[1], expert.group[it[2]], expert.severity[it[3]]) end

-- Fields are declared once for each name.
local declared, fields = {}, {}
local function declare(name, sort, ...)
  if not declared[name] then
    declared[name] = ProtoField[sort](name, ...)
    fields[#fields + 1] = declared[name]
  end
  return declared[name]
end

local function declare_number(n)
  local names = n.enum == "tc_act" and VERDICTS or ENUMS[n.enum] or NAMES[n.names]
  local is_hex = (n.bits or n.unit == "hex" or n.unit == "net_hex" or n.unit == "u32_handle") and n[1]:sub(1, 1) ~= "s"
  n.names_of = names
  n.field = declare(n[2], SORTS[n[1]], n[3], is_hex and base.HEX or base.DEC, names, nil, ABOUT[n[2]])
  for i, bit in ipairs(n.bits and not n.no_bits and BITS[n.bits] or {}) do
    n.flags = n.flags or {}
    local name = n[2] .. "." .. bit[2]
    n.flags[i] = declare(name, "bool", bit[2], n.width * 8, nil, bit[1], ABOUT[name])
  end
end

-- Forms of which any bytes of their length are.
local ANY = {handle = true, mac = true, ipv4 = true, ipv6 = true}

-- Gives a form its field and its width, and those in it; `always` is the length if any bytes of that length are of the form.
local function prepare(n)
  local sort = SORTS[n[1]]
  n.width, n.is_leaf = n.width or WIDTHS[n[1]], sort ~= nil
  n.is_number, n.is_signed, n.is_big = sort ~= nil and sort:find("int") ~= nil, n[1]:sub(1, 1) == "s", n[1]:sub(1, 2) == "be"
  for _, inner in ipairs(n.parts or {n.inner or n.other}) do prepare(inner) end
  if n.is_number or ANY[n[1]] then n.always = n.width end
  if n[1] == "struct" then
    n.always = 0
    for _, x in ipairs(n.parts) do n.always = n.always and x.always and n.always + x.always end
  end
  if n.element then n.element = declare(n.element, "none", n.inner[3], ABOUT[n.element]) end
  if n[2] and n.is_number then declare_number(n)
  elseif n[2] and n.frame then n.field = declare(n[2], sort, n[3], base.NONE, frametype[n.frame], 0, ABOUT[n[2]])
  elseif n[2] and sort == "string" then n.field = declare(n[2], sort, n[3], base.ASCII, ABOUT[n[2]])
  elseif n[2] and sort == "bytes" then n.field = declare(n[2], sort, n[3], base.NONE, ABOUT[n[2]])
  elseif n[2] and sort == "bool" then n.field = declare(n[2], sort, n[3], base.NONE, nil, nil, ABOUT[n[2]])
  elseif n[2] then n.field = declare(n[2], sort or "none", n[3], ABOUT[n[2]]) end
  if n.twin then
    n.twin = declare(n.twin, n[1] == "handle" and "uint32" or SORTS[n[1]], n[3], n[1] == "handle" and base.HEX or base.DEC, nil, nil, ABOUT[n.twin])
  end
end

-- Numbers at places of a message, in its byte order.
local function bytes_of(c, off, len) return c.bytes:sub(off + 1, off + len) end
local function u16(c, off)
  local a, b = byte(c.bytes, off + 1, off + 2)
  return c.little and a + b * 256 or a * 256 + b
end
local function u32(c, off)
  local a, b, e, d = byte(c.bytes, off + 1, off + 4)
  if c.little then a, b, e, d = d, e, b, a end
  return ((a * 256 + b) * 256 + e) * 256 + d
end
local function number_at(c, off, len) return len == 4 and u32(c, off) or u16(c, off) end

-- What a tree has at bytes: an item of a field, with this text if somebody sees it. If nobody does, only fields that a filter names have items; `c.referenced`
-- is true if it names any.
local function set(c, item, label, text) if c.seen then item:set_text(label .. ": " .. text) end end
local function wanted(c, tree, field) return c.seen or c.referenced and tree:referenced(field) end
local function add(c, tree, n, off, len, text)
  local item = c.little and tree:add_le(n.field, c.tvb(off, len)) or tree:add(n.field, c.tvb(off, len))
  if text and c.seen then item:set_text(n[3] .. ": " .. text) end
  return item
end
local function raw(c, off, len, tree, label, why)
  local item = tree:add(F.raw.field, c.tvb(off, len))
  if c.seen then item:set_text((label and label ~= "" and label .. ": raw " or "Raw: ") .. hex_quoted(bytes_of(c, off, len))) end
  item:add_proto_expert_info(X.form, why)
  return item
end

-- A number as text.
local function number_text(c, n, wire)
  local s = (c.little and not n.is_big and #wire > 1) and wire:reverse() or wire
  local digits, sign = decimal(s, n.is_signed)
  local v = tonumber(sign .. digits)
  if n.enum == "tc_act" then return verdict(v) end
  local name = n.names_of and n.names_of[v]
  if not name and not n.unit and not n.bits then return sign .. digits end
  local text = n.unit == "hex" and n.names and #s == 2 and ("0x%04x"):format(v) or in_unit(n.unit, s, n.is_signed, wire, digits, sign)
  if name then return name .. " (" .. text .. ")" end
  if n.bits and not n.names then return flags(BITS[n.bits], unsigned(s:sub(1, -5)), unsigned(s:sub(-4)), in_unit("hex", s, false, wire, digits, sign)) end
  return n.unit == "ifindex" and c.links[v] and text .. " (" .. quoted(c.links[v]) .. ")" or text
end

-- Why bytes aren't of a form that holds no others; nil if they are.
local function fault(n, s)
  local what = n[1]
  if n.width and #s ~= n.width then return ("%d bytes instead of %d"):format(#s, n.width) end
  if n.is_number then return nil end
  if what == "bool" and byte(s) > 1 then return "neither 0 nor 1" end
  if what == "text" and s:sub(-1) ~= "\0" then return "a text without a NUL at its end" end
  if (what == "text" or what == "bare") and not is_utf8(s) then return "a text that isn't UTF-8" end
end

-- The value of a form that holds no others, where Wireshark can't read it, and its text.
local function value_of(c, n, s)
  local what = n[1]
  if what == "handle" then
    local text = handle(unsigned(c.little and s:reverse() or s))
    return text, text
  elseif what == "text" or what == "bare" or what == "kind" then
    s = what == "bare" and s or s:gsub("\0$", "")
    return clean(s), quoted(s)
  elseif what == "flag" or what == "bool" then return s ~= "\0", s ~= "\0" and "true" or "false"
  elseif what == "mac" then return nil, hex(s):gsub("..", "%0:"):sub(1, -2)
  elseif what == "ipv4" then return nil, ("%d.%d.%d.%d"):format(byte(s, 1, 4)) end
  return nil, what ~= "ipv6" and hex_quoted(s) or nil
end

-- A second name of the same value, which filters know and trees don't show.
local function show_twin(c, n, off, len, tree)
  if not wanted(c, tree, n.twin) then return end
  local range = c.tvb(off, len)
  local item = (c.little and not n.is_big) and tree:add_le(n.twin, range) or tree:add(n.twin, range)
  item:set_hidden()
end

-- Shows a number.
local function show_number(c, n, off, len, tree)
  local is_le, item = c.little and not n.is_big, tree
  if c.seen then
    local range = c.tvb(off, len)
    item = is_le and tree:add_le(n.field, range) or tree:add(n.field, range)
    item:set_text(n[3] .. ": " .. number_text(c, n, bytes_of(c, off, len)))
  elseif c.referenced and tree:referenced(n.field) then
    item = is_le and tree:add_le(n.field, c.tvb(off, len)) or tree:add(n.field, c.tvb(off, len))
  end
  if n.flags and (c.bits or not c.seen) and (c.seen or c.referenced) then
    for _, flag in ipairs(n.flags) do
      if wanted(c, tree, flag) then
        local range = c.tvb(off, len)
        if is_le then item:add_le(flag, range) else item:add(flag, range) end
      end
    end
  end
  if n.twin then show_twin(c, n, off, len, tree) end
  return item, true
end

-- Shows a form that holds no others. Returns the item, and true if the bytes are of the form.
local function show_leaf(c, n, off, len, tree, left)
  if n.is_number and len == n.width and left ~= 0 then return show_number(c, n, off, len, tree) end
  local s = bytes_of(c, off, len)
  local why = left == 0 and "nested too deep" or fault(n, s)
  if why then return raw(c, off, len, tree, n[3], why), false end
  if n.twin then show_twin(c, n, off, len, tree) end
  if not wanted(c, tree, n.field) then return tree, true end
  local value, text = value_of(c, n, s)
  local item = value == nil and tree:add(n.field, c.tvb(off, len)) or tree:add(n.field, c.tvb(off, len), value)
  if c.is_flush and n[2] == "tc.action.cookie" and len == 4 then set(c, item, "Count", ("%.0f"):format(number_at(c, off, 4)))
  elseif text then set(c, item, n[3], text) end
  return item, true
end

local show = {}

-- The length and the type of an attribute: `head` has its place, its word, and what the table says of it.
local HEADS = {}
local function show_head(c, item, head)
  if not head or not head.word or not (c.headers or not c.seen) then return end
  if not c.seen and not wanted(c, item, F.length.field) and not wanted(c, item, F.word.field) then return end
  local key = (head.kernel or "") .. head.word .. (head.usual or "")
  local text = HEADS[key]
  if not text then
    text = ("0x%04x"):format(head.word) .. (head.kernel and (" (%s%s)"):format(head.kernel, head.word >= NESTED and ", NLA_F_NESTED" or "") or "")
    text = F.word[3] .. ": " .. text .. (head.usual and head.usual ~= head.word and (", usually 0x%04x"):format(head.usual) or "")
    HEADS[key] = text
  end
  add(c, item, F.length, head.at, 2)
  local word = add(c, item, F.word, head.at + 2, 2)
  if c.seen then word:set_text(text) end
end

-- Shows a form in an item of its own, or without one; of an attribute with its header. Returns the item; true if it is a leaf of its form; a list's kind.
local function member(c, n, off, len, tree, kind, left, head)
  if n.is_leaf then
    local item, plain = show_leaf(c, n, off, len, tree, left)
    show_head(c, item, head)
    return item, plain
  end
  local item = tree
  if n.field then
    if wanted(c, tree, n.field) then
      item = tree:add(n.field, head and c.tvb(head.at, off + len - head.at) or c.tvb(off, len))
      if c.seen then item:set_text(n[3]) end
    end
  elseif n[1] == "array" and c.seen then item = tree:add(head and c.tvb(head.at, off + len - head.at) or c.tvb(off, len), n[3]) end
  if n.field or n[1] == "array" then show_head(c, item, head) end
  if left == 0 then return raw(c, off, len, item, nil, "nested too deep"), false end
  return item, false, show[n[1]](c, n, off, len, item, kind, left - 1)
end

function show.struct(c, n, off, len, tree, kind, left)
  if len < n.least then return raw(c, off, len, tree, nil, ("%d bytes instead of %d"):format(len, n.least)) end
  local stop = off + len
  for _, x in ipairs(n.parts) do
    local size = x.width or stop - off
    if x[1] ~= "pad" or bytes_of(c, off, size):find("[^\0]") then member(c, x, off, size, tree, kind, left) end
    off = off + size
  end
  if off < stop then add(c, tree, F.rest, off, stop - off, hex_quoted(bytes_of(c, off, stop - off))):add_proto_expert_info(X.form, "bytes after the record") end
end

function show.array(c, n, off, len, tree, kind, left)
  local stop, size, texts = off + len, n.inner.width or len, {}
  while off < stop do
    member(c, n.inner, off, math.min(size, stop - off), tree, kind, left)
    if c.seen and n.inner.is_leaf and #texts < 60 then
      local s = bytes_of(c, off, math.min(size, stop - off))
      texts[#texts + 1] = #s == size and number_text(c, n.inner, s) or "raw " .. hex(s)
    end
    off = off + size
  end
  if #texts > 0 then set(c, tree, n[3], table.concat(texts, " ")) end
end

-- The form of a choice that bytes follow, and the length of what they begin with.
local function chosen(c, n, off, len)
  local bytes = bytes_of(c, off, len)
  for _, x in ipairs(n.parts) do
    local start = x.prefix or ""
    if (x.length or len) == len and bytes:sub(1, #start) == start then return x, #start end
  end
end
function show.choice(c, n, off, len, tree, kind, left)
  local x, prefixed = chosen(c, n, off, len)
  if x then return member(c, x, off + prefixed, len - prefixed, tree, kind, left, {at = off}) end
  add(c, tree, F.other, off, len, hex_quoted(bytes_of(c, off, len))):add_proto_expert_info(X.unknown, "a form that isn't in the table")
end

-- Goes through attributes: the type and word of each, the places of header and payload, and its length. If the rest is no attribute, its type is false.
local function attributes(c, off, stop)
  local bytes, little = c.bytes, c.little
  return function()
    if off >= stop then return nil end
    local at, room, size, word = off, stop - off, 0, 0
    if room >= 4 then
      local a, b, e, d = byte(bytes, at + 1, at + 4)
      if little then size, word = a + b * 256, e + d * 256 else size, word = a * 256 + b, e * 256 + d end
    end
    if size < 4 or size > room then
      off = stop
      return false, 0, at, at, room
    end
    off = at + size + -size % 4
    return word % TYPE, word, at, at + 4, size - 4
  end
end

-- Shows attributes, each by `one`, which returns the item. What is no attribute is raw to the end.
local function each(c, off, len, tree, one)
  for ty, word, at, body, size in attributes(c, off, off + len) do
    if not ty then return raw(c, at, size, tree, nil, "no attribute: " .. (size < 4 and "no room for a header" or "a wrong length")) end
    local padding = size % 4 > 0 and bytes_of(c, body + size, math.min(-size % 4, off + len - body - size))
    local is_odd = padding and (#padding < -size % 4 or padding:find("[^\0]") ~= nil) or false
    local item = one(ty, word, at, body, size, is_odd)
    if is_odd then add(c, item, F.padding, body + size, #padding, hex_quoted(padding)) end
  end
end

-- Marks what the kernel's answer to a request is about: the attribute for which it was refused, and the one in which another is missing; `list` is its list.
local function mark(c, at, item, list)
  for _, it in ipairs(c.marks or {}) do
    if c.request + it.at == at then
      local row = it.missing and LISTS[list] and LISTS[list][it.missing]
      local text = it.text .. (row and " (" .. row[1] .. ")" or "")
      if c.seen then item:append_text("   <== " .. text) end
    end
  end
end

-- The text of a kind, without the NUL that may end it; nil if it isn't UTF-8, and then it is none.
local function kind_at(c, off, len)
  local s = bytes_of(c, off, len):gsub("\0$", "")
  return is_utf8(s) and s or nil
end
local function own_kind(c, off, len)
  for ty, _, _, body, size in attributes(c, off, off + len) do
    local kind = ty == 1 and kind_at(c, body, size)
    if kind then return kind end
  end
end

-- The item that a mask or an end is joined with: that of its address or its beginning, if it comes before it and has the usual form.
local function joined(c, n, before, body, size)
  if not before or size ~= n.width or before.name ~= (n.mask or n.upto) then return nil end
  local s = bytes_of(c, body, size)
  local len = n.mask and prefix(s)
  if n.mask and not len then return nil end
  if c.seen then
    local _, text = value_of(c, n, s)
    before.item:append_text(len and "/" .. len or "-" .. (SORTS[n[1]]:find("int") and number_text(c, n, s) or text or tostring(c.tvb(body, size):ipv6())))
  end
  return before.item
end

-- Shows an attribute of the table, by its form or that of the kind. Returns the item, its form, and what a mask or an end may be joined with.
local function show_row(c, n, head, body, size, tree, kind, left, before)
  local own = n[1] == "by" and (KINDS[n.kinds][kind] or {})[n.which]
  if n[1] == "by" and not own then n = n.other end
  head.usual = head.usual + ((own or n).nested and NESTED or 0)
  if own then
    local item = tree
    if wanted(c, tree, n.field) then
      item = tree:add(n.field, c.tvb(head.at, size + 4))
      if c.seen then item:set_text(n[3]) end
    end
    show_head(c, item, head)
    member(c, own, body, size, item, kind, n.which == "statistics" and math.max(left - 1, 0) or left)
    return item, own
  end
  local target = (n.mask or n.upto) and left > 0 and joined(c, n, before, body, size)
  local item, plain = member(c, n, body, size, target or tree, kind, left, head)
  if n[1] == "flag" and n[3] == "pad" then return item, n, before end
  return item, n, plain and not target and head.word == head.usual and not head.is_odd and {name = n[2], item = item} or nil
end

-- Shows a list. A kind in it sets the form of attributes after it, or if it has an own one, the first of all. Returns the kind.
function show.list(c, n, off, len, tree, kind, left)
  local has_kind, before = n[1] ~= "list", nil
  if n[1] == "own" then kind = own_kind(c, off, len) end
  each(c, off, len, tree, function(ty, word, at, body, size, is_odd)
    local row, item, form = LISTS[n.list][ty], nil, {}
    local found = has_kind and ty == 1 and kind_at(c, body, size)
    if not row or found == nil then
      item, before = add(c, tree, F.other, body, size, c.seen and ("word 0x%04x value %s"):format(word, hex_quoted(bytes_of(c, body, size)))), nil
      item:add_proto_expert_info(X.unknown, ("type %d isn't in the table"):format(ty))
      show_head(c, item, {at = at, word = word})
    else
      if found and n[1] == "inforce" then kind = found end
      item, form, before = show_row(c, row[2], {at = at, word = word, kernel = row[1], usual = ty, is_odd = is_odd}, body, size, tree, kind, left, before)
      if found and c.seen and bytes_of(c, body, size):sub(-1) ~= "\0" then item:append_text(" (without a NUL)") end
    end
    mark(c, at, item, form.list)
    return item
  end)
  return kind
end
show.own, show.inforce = show.list, show.list

-- Shows attributes of any type, each with the same form.
function show.indexed(c, n, off, len, tree, kind, left)
  each(c, off, len, tree, function(_, word, at, body, size)
    local item = wanted(c, tree, n.element) and tree:add(n.element, c.tvb(at, size + 4)) or tree
    show_head(c, item, {at = at, word = word})
    local _, _, own = member(c, n.inner, body, size, item, kind, left)
    own = c.seen and n.inner[1] == "own" and own and quoted(own)
    if own and #c.actions < 8 then c.actions[#c.actions + 1] = own end
    if item ~= tree and c.seen then item:set_text(("%s %d"):format(n.inner[3], word) .. (own and ": " .. own or "")) end
    mark(c, at, item)
    return item
  end)
end
