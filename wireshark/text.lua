-- ---- Values as text: printable ASCII, in the units and with the names of outlines. Numbers are decimal digits, since those of Lua 5.2 have 53 bits.

-- True for valid UTF-8: sequences of these forms, which leave out overlong ones, surrogates and what is above U+10FFFF.
local SEQUENCES = {"[\194-\223][\128-\191]", "\224[\160-\191][\128-\191]", "[\225-\236\238\239][\128-\191][\128-\191]", "\237[\128-\159][\128-\191]",
  "\240[\144-\191][\128-\191][\128-\191]", "[\241-\243][\128-\191][\128-\191][\128-\191]", "\244[\128-\143][\128-\191][\128-\191]"}
local function is_utf8(s)
  for _, sequence in ipairs(s:find("[\128-\255]") and SEQUENCES or {}) do s = s:gsub(sequence, "?") end
  return not s:find("[\128-\255]")
end

-- Bytes as printable ASCII: what is none is escaped, such as \x1b.
local function clean(s) return (s:gsub("[^ -~]", function(c) return ("\\x%02x"):format(c:byte()) end)) end

-- A text as an outline has it: in quotes unless it is a word.
local function quoted(s)
  if s:find("^[%w.:_-]+$") then return s end
  return '"' .. clean((s:gsub('["\\]', "\\%0"))) .. '"'
end

-- Bytes in hex; for a line as many as it has room for.
local function hex(s) return (s:gsub(".", function(c) return ("%02x"):format(c:byte()) end)) end
local function hex_quoted(s) return s == "" and '""' or hex(s:sub(1, 120)) end

-- Digits, multiplied by a small number, and another added.
local function times(digits, by, plus)
  if #digits < 10 then return ("%.0f"):format(tonumber(digits) * by + (plus or 0)) end
  local out, carry = "", plus or 0
  while #digits > 0 do
    local part = tonumber(digits:sub(-9)) * by + carry
    carry = math.floor(part / 1e9)
    out, digits = ("%09.0f"):format(part - carry * 1e9) .. out, digits:sub(1, -10)
  end
  out = (("%.0f"):format(carry) .. out):gsub("^0+", "")
  return out == "" and "0" or out
end

-- Digits, divided by a number of at most 1e10: the quotient and the remainder.
local function divide(digits, by)
  local out, rest = "", 0
  digits = ("0"):rep(-#digits % 5) .. digits
  for part in digits:gmatch("%d%d%d%d%d") do
    local n = rest * 1e5 + tonumber(part)
    local whole = math.floor(n / by)
    out, rest = out .. ("%05.0f"):format(whole), n - whole * by
  end
  out = out:gsub("^0+", "")
  return out == "" and "0" or out, rest
end

-- Nanoseconds in the longest of s, ms, us and ns that counts them exactly.
local function time(ns)
  if ns == "0" then return "0s" end
  for _, unit in ipairs({{9, "s"}, {6, "ms"}, {3, "us"}}) do
    if #ns > unit[1] and ns:sub(-unit[1]) == ("0"):rep(unit[1]) then return ns:sub(1, -unit[1] - 1) .. unit[2] end
  end
  return ns .. "ns"
end

-- Bytes a second in bits, as tc writes them.
local function bits(rate)
  local n = times(rate, 8)
  for _, unit in ipairs({"bit", "Kbit", "Mbit", "Gbit"}) do
    if #n <= 3 or #n <= 6 and n:sub(-3) ~= "000" then return n .. unit end
    n = n:sub(1, -4)
  end
  return n .. "Tbit"
end

-- Thousandths of a percent of a number in units of 2^-32, rounded.
local function percent(n)
  local thousandths = math.floor((tonumber(n) * 100000 + 2 ^ 31) / 2 ^ 32)
  local whole = math.floor(thousandths / 1000)
  return ("%.0f.%03.0f"):format(whole, thousandths - whole * 1000):gsub("%.?0+$", "") .. "%"
end

local function u32_handle(n)
  if n == 0 then return "none" end
  local hash, bucket, item = math.floor(n / 2 ^ 20), math.floor(n / 2 ^ 12) % 256, n % 4096
  return (hash > 0 and ("%x:"):format(hash) or "") .. (bucket > 0 and ("%x"):format(bucket) or "") .. (item > 0 and (":%x"):format(item) or "")
end

-- A handle as tc writes it.
local function handle(n)
  if n == 0xffffffff or n == 0 then return n == 0 and "0:0" or "root" end
  local major, minor = math.floor(n / 65536), n % 65536
  return (major > 0 and ("%x"):format(major) or "") .. ":" .. (minor > 0 and ("%x"):format(minor) or "")
end

-- Units: functions of digits and a sign. Those in UNSIGNED make no sense below zero.
local function counted(name) return function(n, sign) return sign .. n .. name end end
local function span(name, zeros)
  return function(n, sign) return sign .. n .. name .. (n ~= "0" and n:sub(-3) == "000" and (" (%s%s)"):format(sign, time(n .. zeros)) or "") end
end
local SIGNED = {bytes = counted("B"), packets = counted("p"), s = counted("s"), ns = span("ns", ""), us = span("us", "000"), ms = span("ms", "000000"),
  ticks = function(n, sign) return ("%s%s ticks (%s%s)"):format(sign, n, sign, time(times(n, 64))) end}
local UNSIGNED = {["packets/s"] = counted(" p/s"), ["kbit/s"] = counted(" kbit/s"), percent = counted("%"),
  ["bytes/s"] = function(n) return n .. " B/s (" .. bits(n) .. ")" end,
  clock_t = function(n) return n .. " clock_t (" .. time(n == "0" and n or n .. "0000000") .. ")" end,
  probability = function(n) return n .. " (" .. percent(n) .. ")" end,
  log2 = function(n) return tonumber(n) < 64 and ("%s (%.0f)"):format(n, 2 ^ tonumber(n)) or n end,
  u32_handle = function(n) return u32_handle(tonumber(n)) end}

-- What an action says of a packet.
local VERDICTS = {[-1] = "continue", [0] = "pass", [1] = "reclassify", [2] = "drop", [3] = "pipe", [4] = "stolen", [5] = "queued", [6] = "repeat",
  [7] = "redirect", [8] = "trap"}
local function verdict(v)
  local low = v % 2 ^ 28
  if v - low == 2 ^ 28 then return ("jump %.0f"):format(low) end
  if v - low == 2 ^ 29 then return ("goto chain %.0f"):format(low) end
  return VERDICTS[v] or ("%.0f"):format(v)
end

-- The names of the bits that are set, and what has no name in hex; in brackets the number. It comes as its upper and its lower 32 bits.
local function flags(names, upper, n, hexed)
  local out, rest = {}, n
  for _, bit in ipairs(names) do
    if math.floor(n / bit[1]) % 2 == 1 then out[#out + 1], rest = bit[2], rest - bit[1] end
  end
  if #out == 0 then return hexed end
  if upper > 0 then out[#out + 1] = ("0x%x%08x"):format(upper, rest) elseif rest > 0 then out[#out + 1] = ("0x%x"):format(rest) end
  return table.concat(out, " ") .. " (" .. hexed .. ")"
end

-- The length of the prefix that a mask has; nil if it is the mask of none.
local function prefix(mask)
  local len, ended = 0, false
  for i = 1, #mask do
    local b, ones = mask:byte(i), 0
    while b >= 128 do b, ones = b * 2 % 256, ones + 1 end
    if b > 0 or ended and ones > 0 then return nil end
    len, ended = len + ones, ended or ones < 8
  end
  return len
end

-- A number of up to 32 bits, the most significant byte first.
local byte, floor = string.byte, math.floor
local function unsigned(s)
  local a, b, c, d = byte(s, 1, 4)
  if d then return ((a * 256 + b) * 256 + c) * 256 + d end
  return c and (a * 256 + b) * 256 + c or b and a * 256 + b or a or 0
end

-- The digits of a number and its sign, from its bytes, the most significant first.
local function decimal(s, is_signed)
  local upper, lower, sign = #s > 4 and unsigned(s:sub(1, -5)) or 0, unsigned(s:sub(-4)), ""
  if is_signed and byte(s) >= 128 then
    sign, lower = "-", 256 ^ math.min(#s, 4) - lower
    if #s == 8 then upper, lower = 2 ^ 32 - (lower < 2 ^ 32 and 1 or 0) - upper, lower % 2 ^ 32 end
  end
  if upper < 2 ^ 20 then return ("%.0f"):format(upper * 2 ^ 32 + lower), sign end
  return times(times(("%.0f"):format(upper), 65536), 65536, lower), sign
end

-- A number in a unit: exact, and in brackets what it is to people. `raw` has its bytes as the message has them.
local function in_unit(unit, s, is_signed, raw, digits, sign)
  if unit == "net_hex" then s = raw end
  if SIGNED[unit] then return SIGNED[unit](digits, sign) end
  if sign == "-" then return "-" .. digits end
  if unit == "hex" or unit == "net_hex" then return "0x" .. hex(s):gsub("^0+(.)", "%1") end
  return UNSIGNED[unit] and UNSIGNED[unit](digits, "") or digits
end
