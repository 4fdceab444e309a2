-- Shows the shims of captures that examples/tools/to-pcap writes, in Wireshark and tshark:
--     tshark -X lua_script:examples/tools/tva.lua -r CAPTURE
-- docs/FORMATS.md has the layouts. The fields of a shim are tva.version, tva.kind and so on; a shim that is no layout is
-- tva.malformed, and nothing else of it is shown. IP's identification tells how many bytes the shim has; 0 is no shim.

local tva = Proto("tva", "Traffic Validation Architecture")

local PROTOCOL = 253 -- of the made-up header
local ITEMS_MOST = 16
local REQUEST, LIST, NONCE, RENEWAL = 0, 1, 2, 3
local NOTICE, GRANT = 1, 2
local KINDS = {[REQUEST] = "request", [LIST] = "list", [NONCE] = "nonce", [RENEWAL] = "renewal"}
local BACKS = {[NOTICE] = "notice", [GRANT] = "grant"}

-- by version: the bytes of rights, the number that a unit adds to them, and what they are below
local RIGHTS = {[1] = {bytes = 2, unit = 64, below = 2 ^ 16}, [2] = {bytes = 4, unit = 128, below = 2 ^ 27}}

local f = {
    version = ProtoField.uint8("tva.version", "Version", base.DEC, nil, 0xf0),
    demoted = ProtoField.bool("tva.demoted", "Demoted mark", 8, nil, 0x08),
    back = ProtoField.bool("tva.back", "Return info at the end", 8, nil, 0x04),
    kind = ProtoField.uint8("tva.kind", "Kind", base.DEC, KINDS, 0x03),
    protocol = ProtoField.uint8("tva.protocol", "Protocol above", base.DEC),
    entries = ProtoField.uint8("tva.entries", "Number of entries", base.DEC),
    entry = ProtoField.none("tva.entry", "Entry"),
    tag = ProtoField.uint16("tva.tag", "Tag", base.DEC),
    precapability = ProtoField.bytes("tva.precapability", "Pre-capability"),
    nonce = ProtoField.bytes("tva.nonce", "Nonce"),
    count = ProtoField.uint8("tva.count", "Number of capabilities", base.DEC),
    pointer = ProtoField.uint8("tva.pointer", "Pointer", base.DEC),
    n = ProtoField.uint32("tva.n", "Units of 1,024 bytes, N", base.DEC),
    t = ProtoField.uint32("tva.t", "Seconds, T", base.DEC),
    capability = ProtoField.bytes("tva.capability", "Capability"),
    return_info = ProtoField.uint8("tva.return", "Return info", base.DEC, BACKS),
    return_count = ProtoField.uint8("tva.return.count", "Number of capabilities", base.DEC),
    return_n = ProtoField.uint32("tva.return.n", "Units of 1,024 bytes, N", base.DEC),
    return_t = ProtoField.uint32("tva.return.t", "Seconds, T", base.DEC),
    return_capability = ProtoField.bytes("tva.return.capability", "Capability"),
    shim = ProtoField.uint16("tva.shim", "Bytes of the shim", base.DEC),
    payload = ProtoField.uint16("tva.payload", "Bytes of the payload", base.DEC),
    malformed = ProtoField.bytes("tva.malformed", "Malformed shim"),
}
tva.fields = f

local broken = ProtoExpert.new("tva.broken", "These bytes are no layout of a shim", expert.group.MALFORMED, expert.severity.WARN)
tva.experts = {broken}

local identification = Field.new("ip.id")

-- Bytes that are taken from the front; what was taken is kept, to be shown where all of it is a shim.
local Reading = {}
Reading.__index = Reading

-- Takes so many bytes. Ends the reading where there aren't so many.
function Reading:take(count)
    if self.place + count > self.bytes:len() then error("short") end
    self.place = self.place + count
    return self.bytes(self.place - count, count)
end

-- Something to be shown of some bytes: a field, with a value where the bytes alone don't tell it.
function Reading:show(field, range, value)
    self.shown[#self.shown + 1] = {field = field, range = range, value = value, depth = self.depth}
end

function Reading:number(field, most)
    local range = self:take(1)
    if range:uint() > most then error("too many") end
    self:show(field, range)
    return range:uint()
end

function Reading:rights(n, t)
    local told = RIGHTS[self.version]
    local range = self:take(told.bytes)
    local number = range:uint()
    if number >= told.below then error("too large") end
    self:show(n, range, math.floor(number / told.unit))
    self:show(t, range, number % told.unit)
    return string.format("%d units within %d s", math.floor(number / told.unit), number % told.unit)
end

function Reading:capabilities(field, count)
    for _ = 1, count do self:show(field, self:take(8)) end
end

function Reading:request()
    local count = self:number(f.entries, ITEMS_MOST)
    for _ = 1, count do
        self:show(f.entry, self.bytes(self.place, math.min(10, self.bytes:len() - self.place)))
        self.depth = 1
        self:show(f.tag, self:take(2))
        self:show(f.precapability, self:take(8))
        self.depth = 0
    end
    return count == 1 and "1 entry" or count .. " entries"
end

function Reading:listed()
    local count = self:number(f.count, ITEMS_MOST)
    local pointer = self:number(f.pointer, count)
    local rights = self:rights(f.n, f.t)
    self:capabilities(f.capability, count)
    return string.format("capability %d of %d for %s", pointer, count, rights)
end

function Reading:return_info()
    local range = self:take(1)
    if not BACKS[range:uint()] then error("unknown") end
    self:show(f.return_info, range)
    if range:uint() == NOTICE then return ", brings a notice" end
    self.depth = 1
    local count = self:number(f.return_count, ITEMS_MOST)
    local rights = self:rights(f.return_n, f.return_t)
    self:capabilities(f.return_capability, count)
    self.depth = 0
    return ", brings a grant of " .. rights
end

-- Reads a whole shim. Returns what it is in words.
function Reading:shim()
    local first = self:take(1)
    local bits = first:uint()
    self.version = math.floor(bits / 16)
    if not RIGHTS[self.version] then error("version") end
    for _, field in ipairs({f.version, f.demoted, f.back, f.kind}) do self:show(field, first) end
    self:show(f.protocol, self:take(1))
    local kind, told = bits % 4, nil
    if kind == REQUEST then
        told = self:request()
    else
        local nonce = self:take(6)
        self:show(f.nonce, nonce)
        told = kind == NONCE and tostring(nonce:bytes()):lower() or self:listed()
    end
    if bits % 8 >= 4 then told = told .. self:return_info() end
    if bits % 16 >= 8 then told = told .. ", demoted" end
    if self.place ~= self.bytes:len() then error("longer") end
    return KINDS[kind] .. ", " .. told
end

local function add_shim(tree, bytes)
    local reading = setmetatable({bytes = bytes, place = 0, depth = 0, shown = {}}, Reading)
    local whole, told = pcall(Reading.shim, reading)
    if not whole then
        tree:add(f.malformed, bytes()):add_proto_expert_info(broken)
        return "malformed shim"
    end
    local above = tree
    for _, it in ipairs(reading.shown) do
        local under = it.depth == 0 and tree or above
        local item = it.value and under:add(it.field, it.range, it.value) or under:add(it.field, it.range)
        if it.depth == 0 then above = item end
    end
    return told
end

function tva.dissector(buffer, packet, tree)
    local size = math.min(identification().value, buffer:len())
    local told = "no shim"
    local shown = tree:add(tva, buffer(0, size))
    shown:add(f.shim, size):set_generated()
    if size > 0 then told = add_shim(shown, buffer(0, size):tvb()) end
    shown:add(f.payload, buffer:reported_len() - size):set_generated()
    shown:append_text(", " .. told)
    packet.cols.protocol = "TVA"
    packet.cols.info = told
end

DissectorTable.get("ip.proto"):add(PROTOCOL, tva)
