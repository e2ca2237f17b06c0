-- ---- Lines: a message in the words of `tc`, as `tcshow` prints it without statistics (docs/LINES.md)

-- A word of a line: printable ASCII without blanks, quotes and backslashes. A sentence has blanks.
local function escaped(x) return ("\\x%02x"):format(byte(x)) end
local function sentence(s) return (s:gsub('["\\]', escaped):gsub("[^ -~]", escaped)) end
local function word(s)
  if s == "" then return '""' end
  if not s:find('[^!-~]') and not s:find('["\\]') then return s end
  return (sentence(s):gsub(" ", "\\x20"))
end
local function say(out, text) out[#out + 1] = text end

-- Thousandths of a unit, without zeros at the end.
local function thousandths(digits, unit)
  local part = digits:sub(-3):gsub("0+$", "")
  return digits:sub(1, -4) .. (part ~= "" and "." .. part or "") .. unit
end

-- Digits in the largest of these units, each 1000 of the next, that leaves at most three decimals.
local function in_largest(digits, units)
  if #digits > 9 and digits:sub(-6) == "000000" then return thousandths(digits:sub(1, -7), units[4]) end
  if #digits > 6 and digits:sub(-3) == "000" then return thousandths(digits:sub(1, -4), units[3]) end
  return #digits > 3 and thousandths(digits, units[2]) or digits .. units[1]
end
local RATES, TIMES = {"bit", "kbit", "Mbit", "Gbit"}, {"ns", "us", "ms", "s"}
local function duration(zeros) return function(d) return d == "0" and "0s" or in_largest(d .. zeros, TIMES) end end
local function size_of(digits)
  for _, unit in ipairs(digits == "0" and {} or {{1048576, "MiB"}, {1024, "KiB"}}) do
    local whole, rest = divide(digits, unit[1])
    if rest == 0 then return whole .. unit[2] end
  end
  return digits .. "B"
end

-- The shortest percentage of 2^32 - 1, with at most three decimals, that rounds to the number; else the number.
local function share(digits)
  local n = tonumber(digits)
  local p = floor((n * 200000 + 0xffffffff) / 0x1fffffffe)
  if floor((p * 0x1fffffffe + 100000) / 200000) ~= n then return digits end
  return thousandths(("%04.0f"):format(p), "%")
end
local function ends(unit) return function(d) return d .. unit end end
local IN_LINES = {bytes = size_of, packets = ends("p"), ["packets/s"] = ends("p/s"), percent = ends("%"), probability = share,
  ns = duration(""), us = duration("000"), ms = duration("000000"), s = duration("000000000"), clock_t = duration("0000000"),
  ticks = function(d) return duration("")(times(d, 64)) end, log2 = function(d) return "2^" .. d end,
  ["bytes/s"] = function(d) return in_largest(times(d, 8), RATES) end,
  ["kbit/s"] = function(d) return d == "0" and "0bit" or in_largest(d .. "000", RATES) end}

-- The product of two numbers in digits.
local function product(a, b)
  if #a + #b < 16 then return ("%.0f"):format(tonumber(a) * tonumber(b)) end
  local out = "0"
  b = ("0"):rep(-#b % 4) .. b
  for part in b:gmatch("%d%d%d%d") do
    local more, long = times(a, tonumber(part)), times(out, 10000)
    local sum, carry = "", 0
    while #more > 0 or #long > 0 do
      local n = (tonumber(more:sub(-9)) or 0) + (tonumber(long:sub(-9)) or 0) + carry
      carry = floor(n / 1e9)
      sum, more, long = ("%09.0f"):format(n - carry * 1e9) .. sum, more:sub(1, -10), long:sub(1, -10)
    end
    out = (carry > 0 and ("%.0f"):format(carry) or "") .. sum
  end
  out = out:gsub("^0+", "")
  return out == "" and "0" or out
end

-- The bytes that a rate sends in these ticks.
local function burst(rate, ticks)
  if rate == "0" then return duration("")(times(ticks, 64)) end
  local whole, rest = divide(product(rate, times(ticks, 64)), 1e9)
  return rest == 0 and size_of(whole) or ("~%sB(%st)"):format(whole, ticks)
end

local function ipv6_text(s)
  local parts, best, from = {}, 1, nil
  for i = 1, 16, 2 do
    local a, b = byte(s, i, i + 1)
    parts[#parts + 1] = a * 256 + b
  end
  for i = 1, 8 do
    local n = 0
    while i + n <= 8 and parts[i + n] == 0 do n = n + 1 end
    if n > best then best, from = n, i end
  end
  for i, n in ipairs(parts) do parts[i] = ("%x"):format(n) end
  if not from then return table.concat(parts, ":") end
  return table.concat(parts, ":", 1, from - 1) .. "::" .. table.concat(parts, ":", from + best, 8)
end

-- An unsigned number of at most four bytes.
local function small_at(c, n, off)
  local a, b, e, d = byte(c.bytes, off + 1, off + n.width)
  local little = c.little and not n.is_big
  if d then
    if little then a, b, e, d = d, e, b, a end
    return ((a * 256 + b) * 256 + e) * 256 + d
  end
  return not b and a or little and a + b * 256 or a * 256 + b
end

-- A number: its digits, its sign, and its value, which is nil for a negative one.
local function digits_at(c, n, off)
  if n.width <= 4 and not n.is_signed then
    local v = small_at(c, n, off)
    return ("%d"):format(v), "", v
  end
  local s = bytes_of(c, off, n.width)
  local digits, sign = decimal((c.little and not n.is_big and n.width > 1) and s:reverse() or s, n.is_signed)
  return digits, sign, sign == "" and tonumber(digits) or nil
end

-- Flag words: the names of the bits that are set, and the others in hex.
local function bit_names(names, digits, s)
  local out, rest, upper = {}, unsigned(s:sub(-4)), unsigned(s:sub(1, -5))
  for _, bit in ipairs(names) do
    if floor(rest / bit[1]) % 2 == 1 then out[#out + 1], rest = bit[2], rest - bit[1] end
  end
  if upper > 0 then out[#out + 1] = ("0x%x%08x"):format(upper, rest) elseif rest > 0 then out[#out + 1] = ("0x%x"):format(rest) end
  return out
end
local function bits_at(c, n, off)
  local s = bytes_of(c, off, n.width)
  return bit_names(BITS[n.bits], nil, c.little and not n.is_big and s:reverse() or s)
end

local function number_in_line(c, n, off)
  local digits, sign, v = digits_at(c, n, off)
  if n.enum == "tc_act" then return verdict(tonumber(sign .. digits)) end
  local name = n.names_of and n.names_of[v or tonumber(sign .. digits)]
  if name then return name end
  if n.enum then return sign .. digits end
  if n.bits and not n.names then
    local names = bits_at(c, n, off)
    return #names > 0 and table.concat(names, "|") or "0"
  end
  local unit = n.unit
  if not unit then return sign .. digits end
  if unit == "ifindex" then return c.links[v] and word(c.links[v]) or sign .. digits end
  if IN_LINES[unit] then return sign .. IN_LINES[unit](digits) end
  if sign == "-" then return sign .. digits end
  if unit == "u32_handle" then return u32_handle(v) end
  local s = bytes_of(c, off, n.width)
  if n.names and n.width == 2 then return ("0x%04x"):format(v) end
  return "0x" .. hex((unit == "net_hex" or n.is_big or not c.little) and s or s:reverse()):gsub("^0+(.)", "%1")
end

-- Bytes in hex, or how many there are.
local function bytes_in_line(c, off, len) return len <= 32 and "0x" .. hex(bytes_of(c, off, len)) or ("<%dB>"):format(len) end
local function other(c, w, body, size) return ("attr%s="):format(w < TYPE and ("%d"):format(w) or ("0x%x"):format(w)) .. bytes_in_line(c, body, size) end

-- The value of a form that holds no others, as part of a word; malformed bytes as `{raw=dead}`, and then true.
local function leaf_in_line(c, n, off, len)
  if n.is_number and n.always == len then return number_in_line(c, n, off) end
  local s, what = bytes_of(c, off, len), n[1]
  if fault(n, s) then
    c.odd = true
    return "{raw=" .. hex(s) .. "}", true
  end
  if n.mask then
    local length = prefix(s)
    if length then return ("%d"):format(length) end
  end
  if what == "handle" then return handle(u32(c, off)) end
  if what == "text" or what == "bare" or what == "kind" then return word((what == "bare" and s or s:gsub("\0$", ""))) end
  if what == "flag" then return "true" end
  if what == "bool" then return s == "\0" and "false" or "true" end
  if what == "mac" then return hex(s):gsub("..", "%0:"):sub(1, -2) end
  if what == "ipv4" then return ("%d.%d.%d.%d"):format(byte(s, 1, 4)) end
  if what == "ipv6" then return ipv6_text(s) end
  return hex(s)
end

-- True if the row of a value leaves it out.
local function is_left_out(c, n, off, len)
  local left, below = n.left, n.below
  if not left and not below then return false end
  if left == -1 then return true end
  local v
  if n.is_number then
    if len ~= n.width then return false end
    if n.width <= 4 and not n.is_signed then v = small_at(c, n, off) else v = select(3, digits_at(c, n, off)) end
  elseif n.mask and len == n.width then v = prefix(bytes_of(c, off, len))
  elseif (n[1] == "bool" and len == 1) or (n[1] == "flag" and len == 0) then v = bytes_of(c, off, len) == "\0" and 0 or 1 end
  return v ~= nil and (left and v == left or below and v < below) or false
end

-- True for bytes that follow their form, and all in them. Statistics have no words, and are still looked at.
local sound
local function sound_list(c, n, off, len, kind, left)
  local stop, has_kind = off + len, n[1] ~= "list"
  if n[1] == "own" then kind = own_kind(c, off, len) end
  for ty, _, at, body, size in attributes(c, off, stop) do
    local row = ty and (n[1] == "indexed" and n.inner or n.list and LISTS[n.list][ty] and LISTS[n.list][ty][2])
    if not row then return false end
    if n[1] ~= "indexed" and has_kind and ty == 1 then
      local found = kind_at(c, body, size)
      if not found then return false end
      if n[1] == "inforce" then kind = found end
    end
    if row[1] == "by" then row = (KINDS[row.kinds][kind] or {})[row.which] or row.other end
    if not sound(c, row, body, size, kind, left) then return false end
  end
  return true
end
function sound(c, n, off, len, kind, left)
  if left == 0 then return false end
  if n.always then return len == n.always end
  if n.is_leaf then return not fault(n, bytes_of(c, off, len)) end
  if n[1] == "struct" then
    if len < n.least then return false end
    for _, x in ipairs(n.parts) do
      local size = x.width or len
      if size > len or not sound(c, x, off, size, kind, left - 1) then return false end
      off, len = off + size, len - size
    end
    return len == 0
  elseif n[1] == "array" then
    local size = n.inner.width or len
    while len > 0 do
      if size > len or not sound(c, n.inner, off, size, kind, left - 1) then return false end
      off, len = off + size, len - size
    end
    return true
  elseif n[1] == "choice" then
    local x, prefixed = chosen(c, n, off, len)
    return x and sound(c, x, off + prefixed, len - prefixed, kind, left - 1) or false
  end
  return sound_list(c, n, off, len, kind, left - 1)
end

-- ---- A list or a record as one word

local within
local function assigned(c, n, off, len, out, kind)
  if n[1] == "flag" and len == 0 then return say(out, n.key) end
  if n[1] == "bool" and bytes_of(c, off, len) == "\1" then return say(out, n.key) end
  say(out, n.key .. "=" .. within(c, n, off, len, kind))
end

-- Appends the members of a list or a record.
local function members(c, n, off, len, out, kind)
  if n[1] == "struct" then
    if len < n.least then
      c.odd = true
      return say(out, "raw=" .. hex(bytes_of(c, off, len)))
    end
    local stop = off + len
    for _, x in ipairs(n.parts) do
      local size = x.width or stop - off
      if x[1] == "pad" or is_left_out(c, x, off, size) then -- nothing
      elseif x.s == "Flat" and x.parts or x.key == "attributes" then members(c, x, off, size, out, kind)
      else assigned(c, x, off, size, out, kind) end
      off = off + size
    end
    if off < stop then
      c.odd = true
      say(out, "rest=" .. hex(bytes_of(c, off, stop - off)))
    end
  elseif n[1] == "choice" then
    local x, prefixed = chosen(c, n, off, len)
    if x then return assigned(c, x, off + prefixed, len - prefixed, out, kind) end
    c.odd = true
    say(out, "Other=" .. hex(bytes_of(c, off, len)))
  else
    for ty, w, at, body, size in attributes(c, off, off + len) do
      local row = ty and LISTS[n.list][ty]
      local x = row and row[2]
      if not x then
        c.odd = true
        say(out, ty and other(c, w, body, size) or "raw=" .. hex(bytes_of(c, body, size)))
      elseif not is_left_out(c, x, body, size) then
        if x.s == "Flat" and not x.is_leaf then members(c, x, body, size, out, kind) else assigned(c, x, body, size, out, kind) end
      end
    end
  end
end

function within(c, n, off, len, kind)
  if n.is_leaf then return leaf_in_line(c, n, off, len) end
  local out = {}
  if n[1] == "array" then
    local size, stop = n.inner.width or len, off + len
    if n.inner.is_number and len > 32 * size and len % size == 0 then return ("<%d>"):format(len / size) end
    while off < stop do
      out[#out + 1] = within(c, n.inner, off, math.min(size, stop - off), kind)
      off = off + size
    end
    return "[" .. table.concat(out, ",") .. "]"
  elseif n[1] == "indexed" then
    for _, _, _, body, size in attributes(c, off, off + len) do members(c, n.inner, body, size, out, kind) end
    return "{" .. table.concat(out, ",") .. "}"
  elseif n[1] == "struct" and len < n.least then
    c.odd = true
    return "{raw=" .. hex(bytes_of(c, off, len)) .. "}", true
  end
  members(c, n, off, len, out, kind)
  return "{" .. table.concat(out, ",") .. "}"
end

-- ---- Members as words

local write = {}
local flat, actions_of

-- Writes `word value` or `Name=value`; only the word or the name of what is true.
local function plain(c, n, out, text, is_raw)
  if text == "true" and not is_raw and (n[1] == "flag" or n[1] == "bool") then return say(out, n.w or n.key) end
  if n.w and n.s ~= "Choice" then
    say(out, n.w)
    say(out, text)
  else
    say(out, n.key .. "=" .. text)
  end
end

-- The mask or the end of a range, if it comes next.
local function companion(c, n, after)
  local x, off, len = after()
  if not x or x.key ~= n.a or not x.is_leaf then return nil end
  return x, off, len
end

function write.Mask(c, n, off, len, out, S, after)
  local text = leaf_in_line(c, n, off, len)
  local x, at, size = companion(c, n, after)
  if x and not is_left_out(c, x, at, size) then text = text .. "/" .. leaf_in_line(c, x, at, size) end
  plain(c, n, out, text)
  return x ~= nil
end
function write.Range(c, n, off, len, out, S, after)
  local text = leaf_in_line(c, n, off, len)
  local x, at, size = companion(c, n, after)
  if x then text = text .. "-" .. leaf_in_line(c, x, at, size) end
  plain(c, n, out, text)
  return x ~= nil
end
function write.Alone(c, n, off, len, out)
  local text, is_raw = leaf_in_line(c, n, off, len)
  if is_raw then plain(c, n, out, text, true) else say(out, text) end
end
function write.Choice(c, n, off, len, out)
  local text, is_raw = leaf_in_line(c, n, off, len)
  if is_raw then return say(out, n.key .. "=" .. text) end
  local _, _, v = digits_at(c, n, off)
  if not n.choices then
    n.choices = {}
    for x in (n.w .. "|"):gmatch("([^|]*)|") do n.choices[#n.choices + 1] = x end
  end
  local found = v and v < 64 and n.choices[v + 1] or ""
  say(out, found ~= "" and found or n.key .. "=" .. text)
end
function write.Bits(c, n, off, len, out)
  if len ~= n.width then return say(out, n.key .. "=" .. leaf_in_line(c, n, off, len)) end
  for _, name in ipairs(bits_at(c, n, off)) do say(out, name) end
end
function write.Hardware(c, n, off, len, out, S) write.Bits(c, n, off, len, S.is_action and out or S.hardware) end
function write.Control(c, n, off, len, out, S)
  if c.is_flush and n.key == "Cookie" and len == 4 then
    say(S.control, "count")
    return say(S.control, ("%.0f"):format(unsigned(bytes_of(c, off, 4):reverse())))
  end
  local text, is_raw = leaf_in_line(c, n, off, len)
  if is_raw or n.enum ~= "tc_act" then return plain(c, n, S.control, text, is_raw) end
  say(S.control, text:sub(1, 1) == "-" and n.key .. "=" .. text or text)
end
function write.Head(c, n, off, len, out, S)
  local text = leaf_in_line(c, n, off, len)
  S.chain = S.chain or {text = text, is_left_out = is_left_out(c, n, off, len)}
end
function write.Protocol(c, n, off, len, out, S)
  local text, is_raw = leaf_in_line(c, n, off, len)
  local digits = not is_raw and digits_at(c, n, off)
  if is_raw or tonumber(digits) ~= S.protocol then plain(c, n, out, text, is_raw) end
end
function write.Burst(c, n, off, len, out, S)
  local text, is_raw = leaf_in_line(c, n, off, len)
  if is_raw then return plain(c, n, out, text, true) end
  plain(c, n, out, burst(S.rates[n.a] or "0", (digits_at(c, n, off))))
end
function write.Keys(c, n, off, len, out)
  local stop, key = off + len, n.inner
  while off + key.width <= stop do
    local value, mask = key.parts[2], key.parts[1]
    say(out, "match")
    say(out, hex(bytes_of(c, off + mask.width, 4)) .. "/" .. hex(bytes_of(c, off, 4)))
    say(out, "at")
    local digits, sign = digits_at(c, key.parts[3], off + 8)
    say(out, sign .. digits)
    digits, sign = digits_at(c, key.parts[4], off + 12)
    if digits ~= "0" then say(out, "offmask=" .. sign .. digits) end
    off = off + key.width
  end
  if off < stop then c.odd = true say(out, "{raw=" .. hex(bytes_of(c, off, stop - off)) .. "}") end
end
function write.Statistics(c, n, off, len, out, S) if not sound(c, n, off, len, S.kind, DEEPEST) then c.odd = true end end
function write.Actions(c, n, off, len, out, S)
  if n[1] == "indexed" then return actions_of(c, n, off, len, S) end
  local action = {is_action = true, control = {}, rates = S.rates, long = S.long, protocol = S.protocol, kind = S.kind}
  local words = {"action", n.w}
  flat(c, n, off, len, words, action)
  for _, x in ipairs(action.control) do say(words, x) end
  say(S.actions, table.concat(words, " "))
end

-- A `struct tc_ratespec`: its other members, and the rate, which a 64-bit attribute replaces.
local function rate_of(c, n, off, S)
  for _, x in ipairs(n.parts) do
    if x.key == "rate" then return S.long[n.a] or (digits_at(c, x, off)), (digits_at(c, x, off)) end
    off = off + x.width
  end
end
function write.Rate(c, n, off, len, out, S)
  if len < n.least then
    c.odd = true
    return plain(c, n, out, "{raw=" .. hex(bytes_of(c, off, len)) .. "}", true)
  end
  local rate, own = rate_of(c, n, off, S)
  for _, x in ipairs(n.parts) do
    if x.key == "rate" then
      if not n.left or tonumber(own) ~= n.left then
        say(out, n.w)
        say(out, IN_LINES["bytes/s"](rate))
      end
    elseif x[1] ~= "pad" and not is_left_out(c, x, off, x.width) then
      (write[x.s] or write.Value)(c, x, off, x.width, out, S, function() end)
    end
    off = off + x.width
  end
end
function write.Flat(c, n, off, len, out, S)
  if n[1] == "struct" and len < n.least then
    c.odd = true
    return plain(c, n, out, "{raw=" .. hex(bytes_of(c, off, len)) .. "}", true)
  end
  if n.is_leaf then return write.Bits(c, n, off, len, out) end
  flat(c, n, off, len, out, S)
end
function write.Value(c, n, off, len, out, S)
  if n.is_leaf then return plain(c, n, out, leaf_in_line(c, n, off, len)) end
  local text, is_raw = within(c, n, off, len, S.kind)
  if text == "{}" or text == "[]" and not n.w then return end
  plain(c, n, out, word(text), is_raw)
end
function write.Bytes(c, n, off, len, out, S)
  if not n.is_leaf then return write.Value(c, n, off, len, out, S) end
  plain(c, n, out, bytes_in_line(c, off, len))
end

-- Writes a member, unless it is left out; true if it wrote the next one as well.
local function write_member(c, x, off, len, out, S, after)
  if x.s ~= "Head" and x.s ~= "Rate" and is_left_out(c, x, off, len) then
    if x.always ~= len and (not x.is_leaf or fault(x, bytes_of(c, off, len))) then c.odd = not sound(c, x, off, len, S.kind, DEEPEST) or c.odd end
    return false
  end
  return (write[x.s] or write.Value)(c, x, off, len, out, S, after)
end

-- Writes the members of a record, or of a list, as if they stood in its place.
local function flat_struct(c, n, off, len, out, S)
  local stop, passed, at = off + len, false, off
  for _, x in ipairs(n.parts) do
    if x.s == "Rate" and not S.rates[x.w] then S.rates[x.w] = rate_of(c, x, at, S) end
    at = at + (x.width or 0)
  end
  for i, x in ipairs(n.parts) do
    local size = x.width or stop - off
    local function after() return n.parts[i + 1], off + size, n.parts[i + 1] and (n.parts[i + 1].width or stop - off - size) end
    if x[1] == "pad" then
      if bytes_of(c, off, size):find("[^\0]") then c.odd = true end
    elseif passed then passed = false
    else passed = write_member(c, x, off, size, out, S, after) end
    off = off + size
  end
  if off < stop then
    c.odd = true
    say(out, "rest=" .. hex(bytes_of(c, off, stop - off)))
  end
end

-- 64-bit rates of a list, which replace those in its records.
local function find_long(c, n, off, len, S)
  for ty, _, _, body, size in attributes(c, off, off + len) do
    local row = ty and LISTS[n.list][ty]
    if row and size == 8 and row[2].is_number and row[2].width == 8 and not S.long[row[2].key] then S.long[row[2].key] = (digits_at(c, row[2], body)) end
  end
end

function flat(c, n, off, len, out, S)
  if n[1] == "struct" then return flat_struct(c, n, off, len, out, S) end
  if n[1] == "choice" then
    local x, prefixed = chosen(c, n, off, len)
    if x then return flat(c, x, off + prefixed, len - prefixed, out, S) end
    c.odd = true
    return say(out, "Other=" .. hex(bytes_of(c, off, len)))
  end
  if n[1] == "array" then return say(out, (within(c, n, off, len, S.kind))) end
  if not n.list then return write.Value(c, n, off, len, out, S) end
  if n.has_rates == nil then
    n.has_rates = false
    for _, row in pairs(LISTS[n.list]) do
      for _, x in ipairs(row[2].parts or {}) do n.has_rates = n.has_rates or x.s == "Rate" end
    end
  end
  if n.has_rates then find_long(c, n, off, len, S) end
  local stop, passed = off + len, false
  for ty, w, at, body, size in attributes(c, off, stop) do
    local row = ty and LISTS[n.list][ty]
    if passed then passed = false
    elseif not row then
      c.odd = true
      say(out, ty and other(c, w, body, size) or "raw=" .. hex(bytes_of(c, body, size)))
    else
      local function after()
        for next_ty, _, _, next_body, next_size in attributes(c, body + size + -size % 4, stop) do
          return next_ty and LISTS[n.list][next_ty] and LISTS[n.list][next_ty][2], next_body, next_size
        end
      end
      passed = write_member(c, row[2], body, size, out, S, after)
    end
  end
end

-- Writes the options of a kind, or an attribute that doesn't depend on it, of a message or of an action.
local function write_one(c, ty, w, body, size, list, kind, out, S)
  local row = ty and LISTS[list][ty]
  if not row then
    c.odd = true
    return say(out, ty and other(c, w, body, size) or "raw=" .. hex(bytes_of(c, body, size)))
  end
  local n = row[2]
  if n[1] ~= "by" then return write_member(c, n, body, size, out, S, function() end) end
  local own = (KINDS[n.kinds][kind] or {})[n.which]
  if n.which == "statistics" then
    if not sound(c, own or n.other, body, size, kind, DEEPEST) then c.odd = true end
  elseif own then flat(c, own, body, size, out, S)
  else write_member(c, n.other, body, size, out, S, function() end) end
end

-- An action: its words, and those at its end.
local function action_in(c, off, len, S)
  local action = {is_action = true, control = {}, rates = {}, long = {}, protocol = S.protocol, kind = own_kind(c, off, len)}
  local words, kinds = {}, {}
  for ty, w, _, body, size in attributes(c, off, off + len) do
    if ty == 1 then
      local kind = kind_at(c, body, size)
      if not kind then c.odd = true end
      say(kinds, word(kind or "{raw=" .. hex(bytes_of(c, body, size)) .. "}"))
    else write_one(c, ty, w, body, size, "action", action.kind, words, action) end
  end
  for _, x in ipairs(action.control) do say(words, x) end
  return #kinds > 0 and table.concat(kinds, " ") or "-", words
end
function actions_of(c, n, off, len, S)
  for ty, _, _, body, size in attributes(c, off, off + len) do
    if not ty then
      c.odd = true
      break
    end
    local kind, words = action_in(c, body, size, S)
    if S.own then say(S.own, {kind, words}) else say(S.actions, "action " .. kind .. (#words > 0 and " " .. table.concat(words, " ") or "")) end
  end
end

-- ---- The line of a message, after its verb

local OBJECTS = {[36] = "qdisc", [40] = "class", [44] = "filter", [48] = "action", [100] = "chain"}
local function object_of(ty) return OBJECTS[ty - ty % 4] end

local function place_of(parent)
  if parent == 0 then return nil end
  local named = {[0xffffffff] = "root", [0xfffffff2] = "ingress", [0xfffffff3] = "egress"}
  return named[parent] or "parent " .. handle(parent)
end

local function handle_in(object, kind, n)
  if n == 0 then return "-" end
  if object ~= "filter" then return handle(n) end
  return kind == "u32" and u32_handle(n) or ("0x%x"):format(n)
end

-- The address family, and padding after it that isn't zeros.
local function family_of(c, off, parts)
  local family, padding = byte(c.bytes, off + 1), bytes_of(c, off + 1, 3)
  return (family > 0 and " family " .. (parts.family.names_of[family] or ("%d"):format(family)):gsub("^%l", string.upper) or "") ..
    (padding ~= "\0\0\0" and " padding=" .. hex(padding) or "")
end

-- The lines of a message about actions: one for each.
local function action_lines(c, off, len, verb)
  local S = {own = {}, control = {}, hardware = {}, actions = {}, rates = {}, long = {}, protocol = 0}
  local words, out = {}, {}
  for ty, w, _, body, size in attributes(c, off + 4, off + len) do write_one(c, ty, w, body, size, "action_message", nil, words, S) end
  local head = family_of(c, off, TCAMSG)
  for _, action in ipairs(S.own) do
    for _, x in ipairs(words) do say(action[2], x) end
    say(out, ("%s action %s -%s"):format(verb, action[1], head) .. (#action[2] > 0 and " " .. table.concat(action[2], " ") or ""))
  end
  if #out == 0 then say(out, verb .. " action - -" .. head .. (#words > 0 and " " .. table.concat(words, " ") or "")) end
  return out
end

-- The head of an object: what it is, and where.
local function head_of(c, object, off, kind, S)
  local own, parent, info = u32(c, off + 8), u32(c, off + 12), u32(c, off + 16)
  local index, out = u32(c, off + 4), {object}
  local is_filter = object == "filter" or object == "chain"
  say(out, object == "chain" and (S.chain and S.chain.text or "-") or word(kind or "-"))
  if object ~= "chain" then say(out, handle_in(object, kind, own)) end
  if index == 0xffffffff and is_filter then
    say(out, "block " .. ("%.0f"):format(parent))
  else
    if index > 0 and index ~= 0xffffffff then say(out, "dev " .. (c.links[index] and word(c.links[index]) or ("%.0f"):format(index >= 2 ^ 31 and index - 2 ^ 32 or index))) end
    say(out, place_of(parent))
  end
  if is_filter then
    local pref = floor(info / 65536)
    if pref > 0 then say(out, ("pref %d"):format(pref)) end
    if S.protocol > 0 then say(out, "protocol " .. (NAMES.eth_p[S.protocol] or ("0x%04x"):format(S.protocol))) end
  elseif object == "class" and info > 0 then say(out, "leaf " .. handle(info)) end
  local family = family_of(c, off, TCMSG)
  if object == "chain" then
    if kind then family = family .. " kind " .. word(kind) end
  elseif S.chain and not S.chain.is_left_out then family = family .. " chain " .. S.chain.text end
  return table.concat(out, " ") .. family .. (S.bare and " bare" or "")
end

-- The lines of a message from its header on, each with this verb before it.
local function lines_of(c, ty, off, len, verb)
  local object = object_of(ty)
  if len < (object == "action" and 4 or 20) then
    c.odd = true
    return {verb .. " " .. object .. " - -"}
  end
  if object == "action" then return action_lines(c, off, len, verb) end
  local info = u32(c, off + 16)
  local S = {hardware = {}, actions = {}, control = {}, rates = {}, long = {}, protocol = info % 256 * 256 + floor(info / 256) % 256}
  local words, kind, first = {}, nil, nil
  for t, w, _, body, size in attributes(c, off + 20, off + len) do
    if t == 1 then
      local found = kind_at(c, body, size)
      if not found then c.odd = true end
      if found and bytes_of(c, body, size):sub(-1) ~= "\0" then S.bare = true end
      kind, first = found or kind, first or found
      S.kind = kind
    else write_one(c, t, w, body, size, "tc", kind, words, S) end
  end
  for _, list in ipairs({S.hardware, S.control, S.actions}) do
    for _, x in ipairs(list) do say(words, x) end
  end
  return {verb .. " " .. head_of(c, object, off, first, S) .. (#words > 0 and " " .. table.concat(words, " ") or "")}
end
