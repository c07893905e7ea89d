-- Dissects the packets of lapi in files of `lapi_view pcap`, of link type USER0 (147):
--   tshark -X lua_script:lapi.lua -r run.pcap -V
-- Each field stands as its name and value, in the order and the words of `lapi show`, in both layouts. Bytes that spell
-- no packet are refused as `lapi show` refuses them: the place of the first fault, and the number and name of its reason.

local lapi = Proto("lapi", "LAPI over a lossy switch")

local REASONS = { "Short", "Long", "Magic", "Version", "Kind", "Task", "Field", "NotCanonical" }
local SHORT, LONG, MAGIC, VERSION, KIND, TASK, FIELD, NOT_CANONICAL = 1, 2, 3, 4, 5, 6, 7, 8
local LEGS = { "go", "back", "note", "join", "echo" }
local OPERATIONS = { "put", "get", "putv", "getv", "rmw", "am", "gfence", "addr" }
local UPDATES = { "add", "or", "swap", "cas" }
local GO, BACK, NOTE, JOIN, ECHO = 1, 2, 3, 4, 5
local PUT, GET, PUTV, GETV, RMW, AM, GFENCE, ADDR = 1, 2, 3, 4, 5, 6, 7, 8
local MEMORY, LONGEST_ACTIVE = 65536, 16384

-- What differs from one layout to another, by the byte that tells the version: the first words, the payload of each
-- fragment but the last, the longest message, the bytes of an acknowledgement's bits, and whether handlers answer.
local LAYOUTS = {
  { data = "data", ack = "ack", unit = 256, longest = 16384, bits = 4, echo = false },
  { data = "data2", ack = "ack2", unit = 1024, longest = 65536, bits = 8, echo = true },
}

local NUMBERS = {
  "from", "to", "seq", "length", "fragment", "at", "asked", "source", "dest", "in1", "in2", "prev", "handler", "round",
  "address", "base", "place", "reason",
}
local WORDS = {
  "packet", "message", "op", "operation", "tgt", "org", "cmpl", "pieces", "sources", "dests", "header", "payload", "bits",
  "refused",
}
local fields = {}
for _, name in ipairs(NUMBERS) do
  fields[name] = ProtoField.uint32("lapi." .. name, name)
end
for _, name in ipairs(WORDS) do
  fields[name] = ProtoField.string("lapi." .. name, name)
end
lapi.fields = (function()
  local all = {}
  for _, field in pairs(fields) do
    table.insert(all, field)
  end
  return all
end)()

-- A reader goes over the bytes from left to right. The first fault ends it.
local Reader = {}
Reader.__index = Reader

local function reader(bytes)
  return setmetatable({ bytes = bytes, place = 0, size = bytes:len(), found = {} }, Reader)
end

function Reader:refuse(place, reason)
  error({ place = place, reason = reason }, 0)
end

-- A number of so many bytes that keeps a rule.
function Reader:number(count, reason, keeps)
  if self.place + count > self.size then
    self:refuse(self.size, SHORT)
  end
  local value = self.bytes(self.place, count):uint()
  if keeps and not keeps(value) then
    self:refuse(self.place, reason)
  end
  self.place = self.place + count
  return value
end

function Reader:hex(count)
  if self.place + count > self.size then
    self:refuse(self.size, SHORT)
  end
  local text = count == 0 and "-" or tostring(self.bytes(self.place, count):bytes()):lower()
  self.place = self.place + count
  return text
end

-- Keeps a field for the tree, which is shown as these words.
function Reader:keep(name, start, value, words)
  table.insert(self.found, { name = name, start = start, count = self.place - start, value = value, words = words })
end

function Reader:shown(name, count, keeps, reason)
  local start = self.place
  local value = self:number(count, reason or FIELD, keeps)
  self:keep(name, start, value, name .. " " .. value)
  return value
end

function Reader:counter(name)
  local start = self.place
  local value = self:number(1, FIELD, function(n) return n < 64 or n == 255 end)
  local word = value == 255 and "-" or tostring(value)
  self:keep(name, start, word, name .. " " .. word)
end

function Reader:range(name, length)
  return self:shown(name, 4, function(n) return n + length <= MEMORY end)
end

function Reader:word(name)
  return self:shown(name, 4, function(n) return n % 4 == 0 and n <= MEMORY - 4 end)
end

function Reader:span(fits)
  local at = self:number(4, FIELD, function(n) return n <= MEMORY end)
  local len = self:number(4, FIELD, function(n) return at + n <= MEMORY and fits(n) end)
  return { at = at, len = len }
end

-- Spans, each of which fits what is left and how many follow; or each as long as another.
function Reader:spans(name, label, count, fits)
  local start, spans, words = self.place, {}, {}
  for i = 1, count do
    local span = self:span(function(n) return fits(n, i, spans) end)
    table.insert(spans, span)
    table.insert(words, span.at .. ":" .. span.len)
  end
  local text = table.concat(words, ",")
  self:keep(name, start, text, label .. " " .. text)
  return spans
end

function Reader:count()
  return self:number(1, FIELD, function(n) return n >= 1 and n <= 16 end)
end

local function sum(spans)
  local total = 0
  for _, span in ipairs(spans) do
    total = total + span.len
  end
  return total
end

-- the sum of the lengths is this number at the last
local function covering(total, count)
  return function(n, i, before)
    local now = sum(before) + n
    return now <= total and (i < count or now == total)
  end
end

local function within(most)
  return function(n, _, before) return sum(before) + n <= most end
end

local function as_long_as(others)
  return function(n, i, _) return n == others[i].len end
end

-- What each message carries before its payload, by leg and operation.
local heads = { [GO] = {}, [BACK] = {}, [NOTE] = {}, [JOIN] = {}, [ECHO] = {} }

heads[GO][PUT] = function(r, length)
  r:range("at", length)
  r:counter("tgt")
  r:counter("cmpl")
end

heads[GO][GET] = function(r)
  local asked = r:shown("asked", 4, function(n) return n <= r.layout.longest end)
  r:range("source", asked)
  r:range("dest", asked)
  r:counter("tgt")
  r:counter("org")
end

heads[GO][PUTV] = function(r, length)
  r:counter("tgt")
  r:counter("cmpl")
  local count = r:count()
  r:spans("pieces", "pieces", count, covering(length, count))
end

heads[GO][GETV] = function(r)
  r:counter("tgt")
  r:counter("org")
  local count = r:count()
  local sources = r:spans("sources", "source", count, within(r.layout.longest))
  r:spans("dests", "dest", count, as_long_as(sources))
end

heads[GO][RMW] = function(r)
  local start = r.place
  local operation = r:number(1, FIELD, function(n) return n >= 1 and n <= 4 end)
  r:keep("operation", start, UPDATES[operation], "operation " .. UPDATES[operation])
  r:word("at")
  r:shown("in1", 4)
  r:shown("in2", 4, function(n) return operation == 4 or n == 0 end, NOT_CANONICAL)
  r:word("prev")
  r:counter("org")
end

heads[GO][AM] = function(r)
  r:shown("handler", 1, function(n) return n <= 15 end)
  r:counter("tgt")
  r:counter("cmpl")
  local count = r:number(1, FIELD, function(n) return n % 4 == 0 and n <= 64 end)
  local start = r.place
  local header = r:hex(count)
  r:keep("header", start, header, "header " .. header)
end

heads[BACK][GET] = function(r, length)
  r:range("dest", length)
  r:counter("org")
end

heads[BACK][GETV] = function(r, length)
  r:counter("org")
  local count = r:count()
  r:spans("pieces", "pieces", count, covering(length, count))
end

heads[BACK][RMW] = function(r)
  r:word("dest")
  r:counter("org")
end

local function note(r)
  r:shown("cmpl_number", 1, function(n) return n < 64 end)
end
heads[NOTE][PUT], heads[NOTE][PUTV], heads[NOTE][AM] = note, note, note

heads[ECHO][AM] = function(r)
  r:word("dest")
  r:counter("cmpl")
end

heads[JOIN][GFENCE] = function(r)
  r:shown("round", 2, function(n) return n <= 511 end)
end

heads[JOIN][ADDR] = function(r)
  r:shown("round", 2, function(n) return n <= 511 end)
  r:shown("address", 4, function(n) return n <= MEMORY end)
end

-- Go and Join are from the origin, Join to another task, and the others to the origin.
local function is_leg(r, from, to, origin, n)
  if n == GO then
    return origin == from
  elseif n == JOIN then
    return origin == from and from ~= to
  elseif n == ECHO then
    return r.layout.echo and origin == to
  end
  return (n == BACK or n == NOTE) and origin == to
end

-- Requests, notices and joins carry no bytes, and the answer of a read-modify-write and that of a handler a word.
local function is_length(r, leg, op, n)
  if leg == ECHO or (leg == BACK and op == RMW) then
    return n == 4
  elseif leg == NOTE or leg == JOIN or (leg == GO and (op == GET or op == GETV or op == RMW)) then
    return n == 0
  elseif leg == GO and op == AM then
    return n <= LONGEST_ACTIVE
  end
  return n <= r.layout.longest
end

local function data(r, from, to)
  r:shown("seq", 4)
  local start = r.place
  local origin = r:number(1, TASK, function(n) return n == from or n == to end)
  local statement = r:number(2, FIELD, function(n) return n <= 511 end)
  local leg = r:number(1, KIND, function(n) return is_leg(r, from, to, origin, n) end)
  local name = origin .. "." .. statement .. " " .. LEGS[leg] .. (leg == JOIN and "-" .. to or "")
  r:keep("message", start, name, "message " .. name)
  start = r.place
  local op = r:number(1, KIND, function(n) return heads[leg][n] ~= nil end)
  r:keep("op", start, OPERATIONS[op], "op " .. OPERATIONS[op])
  local length = r:shown("length", 4, function(n) return is_length(r, leg, op, n) end)
  local unit = r.layout.unit
  local fragment = r:shown("fragment", 2, function(n) return n < math.max(1, math.ceil(length / unit)) end)
  heads[leg][op](r, length)
  start = r.place
  local payload = r:hex(math.min(unit, length - unit * fragment))
  r:keep("payload", start, payload, "payload " .. payload)
end

local function acknowledgement(r)
  r:shown("base", 4)
  local start = r.place
  local digits = r:hex(r.layout.bits)
  if r.bytes(r.place - 1, 1):uint() % 2 == 1 then
    r:refuse(start, NOT_CANONICAL)
  end
  r:keep("bits", start, digits, "bits " .. digits)
end

local function packet(r)
  r:number(1, MAGIC, function(n) return n == 0x4c end)
  r.layout = LAYOUTS[r:number(1, VERSION, function(n) return LAYOUTS[n] ~= nil end)]
  local start = r.place
  local kind = r:number(1, KIND, function(n) return n == 1 or n == 2 end)
  local word = kind == 1 and r.layout.data or r.layout.ack
  r:keep("packet", start, word, word)
  local from = r:shown("from", 1, function(n) return n <= 7 end, TASK)
  local to = r:shown("to", 1, function(n) return n <= 7 end, TASK)
  if kind == 1 then
    data(r, from, to)
  else
    acknowledgement(r)
  end
  if r.place < r.size then
    r:refuse(r.place, LONG)
  end
end

fields["cmpl_number"] = fields["cmpl"]

function lapi.dissector(bytes, info, root)
  info.cols.protocol = "LAPI"
  local r = reader(bytes)
  local good, fault = pcall(packet, r)
  if not good and type(fault) ~= "table" then
    error(fault, 0)
  end
  local tree = root:add(lapi, bytes())
  local words = {}
  if good then
    for _, found in ipairs(r.found) do
      local text = found.words:gsub("^cmpl_number ", "cmpl ")
      local value = found.name == "cmpl_number" and tostring(found.value) or found.value
      local item = found.count > 0 and tree:add(fields[found.name], bytes(found.start, found.count), value)
        or tree:add(fields[found.name], value)
      item:set_text(text)
      table.insert(words, text)
    end
  else
    local text = "bad " .. fault.place .. " " .. fault.reason .. " " .. REASONS[fault.reason]
    tree:add(fields["refused"], text):set_text(text)
    tree:add(fields["place"], fault.place):set_hidden(true)
    tree:add(fields["reason"], fault.reason):set_hidden(true)
    table.insert(words, text)
  end
  info.cols.info = table.concat(words, " ")
  return bytes:len()
end

DissectorTable.get("wtap_encap"):add(wtap.USER0, lapi)
