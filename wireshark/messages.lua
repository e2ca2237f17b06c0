-- ---- Messages: netlink's header, answers of the kernel, names of interfaces, packets

local NLMSG_ERROR, RTM_NEWLINK, IFLA_IFNAME, ARPHRD_NETLINK, NETLINK_ROUTE = 2, 16, 3, 824, 0
local NLM_F_CAPPED, NLM_F_ACK_TLVS, NLM_F_ROOT = 0x100, 0x200, 0x100
local FLAGS = {{0x01, "request"}, {0x02, "multi"}, {0x04, "ack"}, {0x08, "echo"}, {0x10, "dump_intr"}, {0x20, "dump_filtered"}}
local FLAGS_OF = {NEW = {{0x400, "create"}, {0x200, "excl"}, {0x100, "replace"}, {0x800, "append"}}, DEL = {{0x100, "nonrec"}, {0x200, "bulk"}},
  GET = {{0x100, "root"}, {0x200, "match"}, {0x400, "atomic"}}, FLUSH = {{0x100, "root"}}, ANSWER = {{0x100, "capped"}, {0x200, "ack_tlvs"}}}

local BODIES = {tc = {"inforce", false, "", list = "tc"}, action = {"list", false, "", list = "action_message"}, extack = {"list", false, "", list = "extack"}}
for _, rows in pairs(LISTS) do for _, row in pairs(rows) do prepare(row[2]) end end
for _, of in pairs(KINDS) do for _, kind in pairs(of) do for _, n in pairs(kind) do prepare(n) end end end
for _, all in pairs({F, TCMSG, TCAMSG, BODIES}) do for _, n in pairs(all) do prepare(n) end end
tc.fields = fields
tc.experts = {X.form, X.cut, X.unknown, X.refused, X.warning}
tc.prefs.headers = Pref.bool("Show the length and the type of each attribute", true, "A line for each part of struct nlattr")
tc.prefs.bits = Pref.bool("Show the bits of flag words", true, "A line for each bit that has a name")

-- Of a capture: requests by their netlink headers; by message the answers to requests, and the requests of answers; what messages do; names of interfaces.
local asked, answers, requests, spoken, links, recent, count
local function forget() asked, answers, requests, spoken, links, recent, count = {}, {}, {}, {}, {}, {}, 0 end
tc.init = forget
forget()

-- Keeps the name of an interface in a message of the kernel; the last counts.
local function learn(c, off, stop)
  for ty, _, _, body, size in attributes(c, off + 16, stop) do
    if ty == IFLA_IFNAME then links[number_at(c, off + 4, 4)] = kind_at(c, body, size) end
  end
end

-- A netlink header.
local function header_at(c, at)
  return {length = u32(c, at), type = u16(c, at + 4), flags = u16(c, at + 6), seq = u32(c, at + 8), port = u32(c, at + 12)}
end
local function has(flags, bit) return floor(flags / bit) % 2 == 1 end
local function is_action(ty) return ty >= 48 and ty <= 50 end

-- ---- What a message does

-- The flags that iproute2 gives a command for an object.
local COMMANDS = {qdisc = {[6] = "add", [5] = "replace", [0] = "change"}, class = {[6] = "add", [4] = "replace", [0] = "change"},
  filter = {[6] = "add", [4] = "replace", [0] = "change"}, chain = {[6] = "add"}, action = {[6] = "add", [5] = "replace"}}
local function request_verb(h)
  local modifiers, object, verb = floor(h.flags / 256) % 16, object_of(h.type), nil
  if h.type % 4 == 0 then verb = COMMANDS[object][modifiers]
  elseif h.type % 4 == 1 then verb = modifiers == 0 and "del" or object == "action" and modifiers == 1 and "flush"
  else verb = modifiers == 0 and "get" or modifiers == 3 and "dump" end
  return verb or ("send flags 0x%x"):format(h.flags)
end

-- True if one of the last 1024 requests with the sequence number has this type, and the port id or none; and, if asked, is no dump.
local function was_sent(h, ty, is_no_dump)
  for _, it in ipairs(recent[h.seq] or {}) do
    if count - it.at < 1024 and it.type == ty and (it.port == h.port or it.port == 0) and not (is_no_dump and it.is_dump) then return true end
  end
  return false
end

-- What a message does, whether it is a request, and who caused a notification. Linux copies the flags and the sequence number of a request into some.
local function speech_of(h)
  local get = h.type - h.type % 4 + 2
  if has(h.flags, 1) and (h.port == 0 or not (was_sent(h, h.type) or was_sent(h, get))) then
    count = count + 1
    recent[h.seq] = recent[h.seq] or {}
    table.insert(recent[h.seq], {at = count - 1, type = h.type, port = h.port, is_dump = floor(h.flags / 256) % 16 == 3})
    return {verb = request_verb(h), is_request = true, by = ""}
  end
  local by = h.port > 0 and (" by %.0f"):format(h.port) or ""
  if h.type % 4 == 1 then return {verb = "gone", by = by} end
  if h.type % 4 == 0 and not has(h.flags, 2) and not was_sent(h, get, true) then return {verb = "new", by = by} end
  return {verb = "is", by = ""}
end

-- ---- Trees

local HEADER = {type = {4, 2}, flags = {6, 2}, seq = {8, 4}, port = {12, 4}}
local function flag_words(h)
  local verb, words, rest = h.type == 49 and "FLUSH" or h.type == NLMSG_ERROR and "ANSWER" or TYPES[h.type]:sub(5, 7), "", h.flags
  for _, of in ipairs({FLAGS, FLAGS_OF[verb]}) do
    for _, flag in ipairs(of) do
      if has(h.flags, flag[1]) then words, rest = words .. " " .. flag[2], rest - flag[1] end
    end
  end
  return rest > 0 and ("%s 0x%04x"):format(words, rest) or words
end

-- Shows a netlink header, of the request in an answer as fields of their own; returns its flags, sequence number and port in words.
local function show_netlink(c, h, at, tree, start)
  start = start or ""
  if c.headers or not c.seen then
    for _, name in ipairs({"type", "flags", "seq", "port"}) do
      local n, places = F[start .. name], HEADER[name]
      if wanted(c, tree, n.field) then
        local item = add(c, tree, n, at + places[1], places[2])
        if name == "type" then set(c, item, n[3], NAMES.message_type[h.type] or ("%d"):format(h.type)) end
        if name == "flags" then set(c, item, n[3], ("0x%04x"):format(h.flags) .. flag_words(h)) end
      end
    end
  end
  if not c.seen then return "" end
  return ("%s seq %.0f%s"):format(flag_words(h), h.seq, h.port > 0 and (" port %.0f"):format(h.port) or "")
end

-- Shows the family that both headers begin with, and its padding; returns them in words.
local function show_family(c, parts, off, tree)
  local family, padding = bytes_of(c, off, 1), bytes_of(c, off + 1, 3)
  show_leaf(c, parts.family, off, 1, tree, 1)
  if padding ~= "\0\0\0" then show_leaf(c, parts.padding, off + 1, 3, tree, 1) end
  return c.seen and (family ~= "\0" and " family " .. number_text(c, parts.family, family) or "") .. (padding ~= "\0\0\0" and " padding " .. hex(padding) or "") or ""
end

-- Shows the last number of `struct tcmsg`, by what the message is about; returns it in words.
local function show_info(c, ty, off, tree)
  local v, item, text = u32(c, off), show_leaf(c, TCMSG.info, off, 4, tree, 1), ""
  if ty < 40 then text = ("refcnt %.0f"):format(v)
  elseif ty < 44 then text = "leaf " .. handle(v)
  else
    local upper, lower = c.little and off + 2 or off, c.little and off or off + 2
    local pref, protocol = ("%.0f"):format(u16(c, upper)), number_text({}, F.protocol, bytes_of(c, lower, 2))
    if wanted(c, item, F.pref.field) then add(c, item, F.pref, upper, 2, pref) end
    if wanted(c, item, F.protocol.field) then set(c, item:add(F.protocol.field, c.tvb(lower, 2)), F.protocol[3], protocol) end
    text = "pref " .. pref .. " protocol " .. protocol
  end
  if v > 0 then set(c, item, "Info", text) end
  return v > 0 and " " .. text or ""
end

-- The bytes of the last kind before a malformed attribute, without the NUL that may end them.
local function last_kind(c, off, len)
  local kind
  for ty, _, _, body, size in attributes(c, off, off + len) do
    if ty == 1 then kind = bytes_of(c, body, size):gsub("\0$", "") end
  end
  return kind
end

-- Shows the interface by its name.
local function show_dev(c, off, tree)
  local index = u32(c, off)
  if index > 0 and index < 0xffffffff and wanted(c, tree, F.dev.field) then
    local item = tree:add(F.dev.field, c.tvb(off, 4), c.links[index] and clean(c.links[index]) or ("%.0f"):format(index))
    item:set_generated()
  end
end

-- Shows `struct tcmsg`; returns it in words.
local function show_tcmsg(c, ty, off, len, tree)
  local words, own, parent = show_family(c, TCMSG, off, tree), u32(c, off + 8), u32(c, off + 12)
  show_leaf(c, TCMSG.index, off + 4, 4, tree, 1)
  local is_block, text = bytes_of(c, off + 4, 4) == "\255\255\255\255", handle(own)
  if not is_block then show_dev(c, off + 4, tree) end
  if c.seen and not is_block then words = words .. " index " .. number_text(c, TCMSG.index, bytes_of(c, off + 4, 4)) end
  if ty >= 44 and ty <= 46 then text = last_kind(c, off + 20, len - 20) == "u32" and u32_handle(own) or ("0x%x"):format(own) end
  set(c, show_leaf(c, TCMSG.handle, off + 8, 4, tree, 1), "Handle", text)
  local of = is_block and {"block", ("%.0f"):format(parent)} or {"parent", handle(parent)}
  set(c, show_leaf(c, TCMSG.parent, off + 12, 4, tree, 1), is_block and "Block" or "Parent", of[2])
  return ("%s handle %s %s %s"):format(words, text, of[1], of[2]) .. show_info(c, ty, off + 16, tree)
end

-- Shows a message after its netlink header, marked by the answer to it. Returns its header in words, and its kind and those of its actions.
local function show_body(c, h, at, len, tree, marks)
  local size, off = is_action(h.type) and 4 or 20, at + 16
  if len < size then return "", "", raw(c, off, len, tree, nil, ("%d bytes instead of %d"):format(len, size)) end
  c.is_flush, c.actions, c.marks, c.request = h.type == 49 and has(h.flags, NLM_F_ROOT), {}, marks, at
  local words = size == 4 and show_family(c, TCAMSG, off, tree) or show_tcmsg(c, h.type, off, len, tree)
  local _, _, kind = member(c, size == 4 and BODIES.action or BODIES.tc, off + size, len - size, tree, nil, DEEPEST - 1)
  if not c.seen then return "", "" end
  return words, (size == 20 and kind and " " .. quoted(kind) or "") .. (#c.actions > 0 and " actions " .. table.concat(c.actions, " ") or "")
end

-- What an extended acknowledgement says: its text, and marks at places of the request.
local function extack_of(c, off, stop, errno)
  local name, said, found = errno == 0 and "ok" or NAMES.errno[errno] or ("%.0f"):format(errno), nil, {}
  local plain_said
  for ty, _, _, body, size in attributes(c, off, stop) do
    if ty == 1 then
      plain_said = kind_at(c, body, size) or hex(bytes_of(c, body, size))
      said = clean(plain_said)
    elseif ty and size == 4 then found[ty] = number_at(c, body, 4) end
  end
  local it = {errno = errno, name = name, said = said, text_said = plain_said, place = found[2], text = errno == 0 and said or name .. (said and ": " .. said or ""), marks = {},
    expert = errno > 0 and X.refused or X.warning}
  if found[2] then it.marks[1] = {at = found[2], text = (errno > 0 and "refused: " or "") .. it.text} end
  if found[5] then
    table.insert(it.marks, {at = found[6] or 0, text = ("attribute %.0f is missing"):format(found[5]), missing = found[5]})
  end
  return it
end

-- The names of the attributes on the way to a place, as in the JSON of tcshow; nil if there is no attribute.
local function names_to(c, list, off, stop, place, kind)
  for ty, _, at, body, size in attributes(c, off, stop) do
    local row = ty and LISTS[list][ty]
    if not row then return nil end
    if ty == 1 and (list == "tc" or list == "action") then kind = kind_at(c, body, size) or kind end
    local n, names = row[2], row[2].key
    local inner = n[1] == "by" and ((KINDS[n.kinds][kind] or {})[n.which] or n.other) or n
    if at == place then return names end
    if place > at and place < body + size then
      if inner[1] == "indexed" then
        for index, _, where, payload, len in attributes(c, body, body + size) do
          if where == place then return names .. ("/%d"):format(index or 0) end
          local rest = place > where and place < payload + len and inner.inner.list and names_to(c, inner.inner.list, payload, payload + len, place)
          if rest then return names .. ("/%d/"):format(index) .. rest end
        end
        return nil
      end
      local rest = inner.list and names_to(c, inner.list, body, body + size, place, kind)
      return rest and names .. "/" .. (inner.layer and inner.layer .. "/" or "") .. rest
    end
  end
end

-- The line of an answer: what the kernel says, and the line of the request.
local function answer_line(c, ack, quote, at, whole)
  local refused = ack.errno > 0
  local said = refused and "refused " .. ack.name or ack.said and "warned" or "ok"
  if ack.said then said = said .. ' "' .. sentence(ack.text_said) .. '"' end
  if ack.place then
    local size = is_action(quote.type) and 4 or 20
    local names = whole > 16 and names_to(c, is_action(quote.type) and "action_message" or "tc", at + 16 + size, at + whole, at + ack.place)
    ack.names = names or ack.names
    said = said .. (ack.names and (" at %s (byte %.0f)"):format(ack.names, ack.place - 16) or (" at byte %.0f"):format(ack.place - 16))
  end
  if whole > 16 then
    c.is_flush = false
    return lines_of(c, quote.type, at + 16, whole - 16, said .. " " .. request_verb(quote))
  end
  return {said .. " " .. (ack.line and ack.line() or request_verb(quote) .. " " .. object_of(quote.type) .. " - -")}
end

-- What is known of an answer to a request of traffic control. An answer that is read for the first time is joined with its request.
local function answer_at(c, h, at, len, number, key)
  local it = {off = at + 16, quoted_at = at + 20}
  it.quote = header_at(c, it.quoted_at)
  local errno, asking = -u32(c, it.off) % 2 ^ 32, bytes_of(c, it.quoted_at, 16)
  it.whole = has(h.flags, NLM_F_CAPPED) and 16 or math.max(16, math.min(it.quote.length, len - 20))
  it.from = math.min(it.quoted_at + it.whole + -it.whole % 4, at + len)
  it.stop = has(h.flags, NLM_F_ACK_TLVS) and at + len or it.from
  it.ack = extack_of(c, it.from, it.stop, errno)
  local request = asked[asking]
  if request and not c.visited then
    it.ack.frame, requests[key], answers[request.key] = number, request, it.ack
    asked[asking] = nil
  end
  it.request = requests[key]
  if it.request then it.ack.line, it.ack.names = it.request.line, it.request.names and it.ack.place and it.request.names(it.ack.place) end
  return it
end

-- Shows an answer; returns what it says, and what of.
local function show_answer(c, h, it, tree)
  local ack, quote, at = it.ack, it.quote, it.quoted_at
  if wanted(c, tree, F.answer.field) then tree:add(F.answer.field, c.tvb(it.off, 4)):set_hidden() end
  if ack.errno > 0 and wanted(c, tree, F.refused.field) then tree:add(F.refused.field, c.tvb(it.off, 4)):set_hidden() end
  set(c, tree:add(F.error.field, c.tvb(it.off, 4), ack.errno), F.error[3], ack.name)
  if it.request then tree:add(F.request_in.field, it.request.frame):set_generated() end
  local item, header, about = tree:add(F.quoted.field, c.tvb(at, it.whole)), "", ""
  local words = show_netlink(c, quote, at, item, "quoted_")
  if it.whole > 16 then header, about = show_body(c, quote, at, it.whole - 16, item, ack.marks) end
  set(c, item, F.quoted[3], TYPES[quote.type] .. words .. header .. about)
  c.marks, c.request = ack.marks, at
  mark(c, at, item, is_action(quote.type) and "action_message" or "tc")
  c.marks = nil
  if it.stop > it.from then
    member(c, BODIES.extack, it.from, it.stop - it.from, c.seen and tree:add(c.tvb(it.from, it.stop - it.from), "Extended acknowledgement") or tree, nil, DEEPEST)
  end
  return ack.errno > 0 and ack.text or ack.said and "warning: " .. ack.text or "acknowledgement"
end

-- Shows a request, marked by the answer to it, or a message of the kernel; returns its words.
local function show_message(c, h, at, len, tree, answer, speech)
  if speech.is_request and wanted(c, tree, F.request.field) then tree:add(F.request.field, c.tvb(at, 16)):set_hidden() end
  if answer then tree:add(F.answer_in.field, answer.frame):set_generated() end
  if answer and answer.errno > 0 and wanted(c, tree, F.refusal.field) then
    tree:add(F.refusal.field, c.tvb(at, 16), answer.text):set_generated()
  end
  return show_body(c, h, at, len - 16, tree, answer and answer.marks)
end

-- A request as answers refer to it. One that is capped has neither its line nor its attributes.
local function keep(c, h, at, len, number, key, verb)
  local names
  local copy = {bytes = c.bytes, little = c.little, links = c.links, is_flush = c.is_flush}
  if len > 40 then
    local list, size = is_action(h.type) and "action_message" or "tc", is_action(h.type) and 4 or 20
    names = function(place) return names_to(copy, list, at + 16 + size, at + len, at + place) end
  end
  local function line() return lines_of(copy, h.type, at + 16, len - 16, verb)[1] end
  asked[bytes_of(c, at, 16)] = {frame = number, key = key, line = line, names = names}
end

-- True if all bytes of a message follow their forms, so that a tree which nobody sees has nothing to report.
local function is_sound(c, h, at, len)
  local size = is_action(h.type) and 4 or 20
  return len == h.length and len >= 16 + size and bytes_of(c, at + 17, 3) == "\0\0\0"
    and sound(c, size == 4 and BODIES.action or BODIES.tc, at + 16 + size, len - 16 - size, nil, DEEPEST)
end

-- The netlink message at a place: a tree of its own if it is traffic control, or answers it. Returns its lines for the list of packets.
local function show_one(c, h, at, len, root, pinfo, key)
  if h.type == RTM_NEWLINK and h.flags % 2 == 0 and not c.visited then learn(c, at + 16, at + len) end
  local is_answer = h.type == NLMSG_ERROR and len >= 36 and TYPES[u16(c, at + 24)]
  if not TYPES[h.type] and not is_answer then return nil end
  local speech, lines, it = spoken[key], nil, nil
  c.odd, c.is_flush = len < h.length, h.type == 49 and has(h.flags, NLM_F_ROOT)
  if is_answer then
    it = answer_at(c, h, at, len, pinfo.number, key)
    speech = {verb = it.ack.errno > 0 and "refused" or it.ack.said and "warned" or "ok"}
    if c.listed then lines = answer_line(c, it.ack, it.quote, it.quoted_at, it.whole) end
  else
    if not speech then
      speech = speech_of(h)
      spoken[key] = speech
    end
    if c.listed then lines = lines_of(c, h.type, at + 16, len - 16, speech.verb) end
    if speech.is_request and not c.visited then keep(c, h, at, len, pinfo.number, key, speech.verb) end
    for i, line in ipairs(lines or {}) do lines[i] = line .. (speech.by or "") end
  end
  local tree = root:add(tc, c.tvb(at, len))
  if wanted(c, tree, F.verb.field) then tree:add(F.verb.field, c.tvb(at, math.min(len, 16)), speech.verb):set_generated() end
  if c.seen or c.referenced or c.odd or not c.listed and (is_answer or not is_sound(c, h, at, len)) then
    if len < h.length then tree:add_proto_expert_info(X.cut, ("%d bytes of %.0f are there"):format(len, h.length)) end
    local words = show_netlink(c, h, at, tree)
    if is_answer then
      local said = show_answer(c, h, it, tree)
      if c.seen then tree:set_text("Linux Traffic Control: NLMSG_ERROR " .. said .. words) end
    else
      local first, second = show_message(c, h, at, len, tree, answers[key], speech)
      if c.seen then tree:set_text("Linux Traffic Control: " .. TYPES[h.type] .. words .. first .. second) end
      mark(c, at, tree, is_action(h.type) and "action_message" or "tc")
    end
    c.marks = nil
  end
  if is_answer and (it.ack.errno > 0 or it.ack.said) then tree:add_proto_expert_info(it.ack.expert, it.ack.text) end
  return lines or {}
end

-- A line that is one of several, shortened to its first words.
local function shortened(line)
  if #line <= 80 then return line end
  return line:sub(1, 77):gsub(" [^ ]*$", "") .. " .."
end

-- Shows the netlink messages of a packet. The byte order is the one in which the length of a message fits.
local this
local function show_packet(tvb, pinfo, root, at)
  local cols = pinfo.cols
  this = this or Dissector.get("tc")
  local c = {tvb = tvb, bytes = tvb:raw(), seen = root.visible, links = links, visited = pinfo.visited, headers = tc.prefs.headers, bits = tc.prefs.bits,
    listed = tostring(cols.protocol) ~= "(protocol)", referenced = root:referenced(this)}
  local lines, room, found, base_key = {}, #c.bytes - at, false, pinfo.number * 65536
  while room >= 16 do
    local first = c.bytes:sub(at + 1, at + 4)
    local big, little = unsigned(first), unsigned(first:reverse())
    c.little = little >= 16 and little <= room or not (big >= 16 and big <= room)
    local h = header_at(c, at)
    if h.length < 16 then break end
    local shown = show_one(c, h, at, math.min(h.length, room), root, pinfo, base_key + at)
    found = found or shown ~= nil
    for _, line in ipairs(shown or {}) do lines[#lines + 1] = line end
    at = at + h.length + -h.length % 4
    room = #c.bytes - at
  end
  if not found or not c.listed then return end
  cols.protocol = "TC"
  if #lines > 1 then
    for i = 1, math.min(#lines, 3) do lines[i] = shortened(lines[i]) end
  end
  cols.info = table.concat(lines, " | ", 1, math.min(#lines, 3)) .. (#lines > 3 and (" | and %d more"):format(#lines - 3) or "")
end

-- Where the messages of route netlink begin in a packet with a cooked header: of LINKTYPE_NETLINK and LINKTYPE_LINUX_SLL, or of SLL2.
local function messages_in(tvb)
  if tvb:len() < 32 then return nil end
  if tvb(2, 2):uint() == ARPHRD_NETLINK and tvb(14, 2):uint() == NETLINK_ROUTE then return 16 end
  return tvb(8, 2):uint() == ARPHRD_NETLINK and tvb(0, 2):uint() == NETLINK_ROUTE and 20 or nil
end

-- A post-dissector is called for every packet, which costs even where it does nothing. So it becomes one at the first packet of these link types: until then it
-- is in the place of their dissectors; it calls the one that was there, and puts them back.
local link_types, built_in = DissectorTable.get("wtap_encap"), {}
for _, number in ipairs({wtap_encaps.NETLINK or 158, wtap_encaps.SLL or 25, wtap_encaps.SLL2 or 210}) do built_in[number] = link_types:get_dissector(number) end
function tc.dissector(tvb, pinfo, root)
  if not built_in then
    local at = messages_in(tvb)
    return at and show_packet(tvb, pinfo, root, at)
  end
  local first = built_in[pinfo.match]
  for number, dissector in pairs(built_in) do link_types:add(number, dissector) end
  built_in = nil
  register_postdissector(tc)
  if first then pcall(first.call, first, tvb, pinfo, root) end
  return tvb:len()
end
for number in pairs(built_in) do link_types:add(number, tc) end
