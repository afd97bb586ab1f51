-- A Wireshark dissector for normd's datagrams: every message, extensions, node lists, stream heads, repair requests, and
-- what `normd show` refuses, with its words. Filter by norm.kind, norm.type, norm.source, norm.object, norm.refused, ..
--
--   tshark -X lua_script:tools/norm.lua -r RUN.pcap        or put this file among Wireshark's personal Lua plugins
--
-- Wireshark has a dissector of its own for RFC 5740, whose protocol is `norm`; it reads other layouts of NACK, ACK and EXT_FTI.
-- This one is the protocol `normd`. It takes the UDP ports of a session with the default key `port`, and of one with that of the examples;
-- others are set in the preferences, or by "Decode as". Offsets and lengths are in octets, numbers are big-endian.

local normd = Proto("normd", "NORM, by normd")

local TYPES = { [1] = "INFO", [2] = "DATA", [3] = "CMD", [4] = "NACK", [5] = "ACK", [6] = "REPORT" }
local COMMANDS = { [1] = "FLUSH", [2] = "EOT", [3] = "SQUELCH", [4] = "CC", [5] = "REPAIR_ADV", [6] = "ACK_REQ", [7] = "APPLICATION" }
local FORMS = { [1] = "ITEMS", [2] = "RANGES", [3] = "ERASURES" }
local ACK_TYPES = { [1] = "CC", [2] = "FLUSH" }
local INFO, DATA, CMD, NACK, ACK, REPORT = 1, 2, 3, 4, 5, 6
local FLUSH, EOT, SQUELCH, CC, REPAIR_ADV, ACK_REQ, APPLICATION = 1, 2, 3, 4, 5, 6, 7
local RANGES, ACK_FLUSH, STREAM, REPAIR = 2, 2, 0x20, 0x01
local VERSION, FEC_ID, EXT_FTI, FTI_WORDS, FIXED_EXTENSION = 1, 5, 64, 3, 128
local COMMON, SUB_TYPE_AT, ITEM, REQUEST_HEAD, STREAM_HEAD = 8, 12, 8, 4, 8

local fields = {
    kind = ProtoField.string("norm.kind", "Message"),
    version = ProtoField.uint8("norm.version", "Version", base.DEC, nil, 0xF0),
    type = ProtoField.uint8("norm.type", "Type", base.DEC, TYPES, 0x0F),
    words = ProtoField.uint8("norm.hlen", "Header length in words", base.DEC),
    sequence = ProtoField.uint16("norm.sequence", "Sequence", base.DEC),
    source = ProtoField.uint32("norm.source", "Source node id", base.DEC),
    instance = ProtoField.uint16("norm.instance", "Instance id", base.DEC),
    grtt = ProtoField.uint8("norm.grtt_code", "GRTT, as its code", base.DEC),
    backoff = ProtoField.uint8("norm.backoff", "Back-off factor K", base.DEC, nil, 0xF0),
    gsize = ProtoField.uint8("norm.gsize_code", "Group size, as its code", base.DEC, nil, 0x0F),
    flags = ProtoField.uint8("norm.flags", "Flags", base.HEX),
    flag_repair = ProtoField.bool("norm.flag.repair", "REPAIR", 8, nil, 0x01),
    flag_explicit = ProtoField.bool("norm.flag.explicit", "EXPLICIT", 8, nil, 0x02),
    flag_info = ProtoField.bool("norm.flag.info", "INFO", 8, nil, 0x04),
    flag_unreliable = ProtoField.bool("norm.flag.unreliable", "UNRELIABLE", 8, nil, 0x08),
    flag_file = ProtoField.bool("norm.flag.file", "FILE", 8, nil, 0x10),
    flag_stream = ProtoField.bool("norm.flag.stream", "STREAM", 8, nil, 0x20),
    fec_id = ProtoField.uint8("norm.fec_id", "FEC Encoding ID", base.DEC),
    object = ProtoField.uint16("norm.object", "Object transport id", base.DEC),
    block = ProtoField.uint24("norm.block", "Source block number", base.DEC),
    symbol = ProtoField.uint8("norm.symbol", "Encoding symbol id", base.DEC),
    sub_type = ProtoField.uint8("norm.subtype", "Sub-type", base.DEC, COMMANDS),
    sender = ProtoField.uint32("norm.sender", "Sender's node id", base.DEC),
    seconds = ProtoField.uint32("norm.seconds", "Seconds", base.DEC),
    micros = ProtoField.uint32("norm.microseconds", "Microseconds", base.DEC),
    ack_type = ProtoField.uint8("norm.ack_type", "ACK type", base.DEC, ACK_TYPES),
    ack_id = ProtoField.uint8("norm.ack_id", "ACK id", base.DEC),
    ext = ProtoField.none("norm.ext", "Extension"),
    ext_type = ProtoField.uint8("norm.ext.type", "Type", base.DEC),
    ext_words = ProtoField.uint8("norm.ext.words", "Length in words", base.DEC),
    ext_content = ProtoField.bytes("norm.ext.content", "Content"),
    fti = ProtoField.none("norm.fti", "EXT_FTI"),
    fti_length = ProtoField.uint64("norm.fti.length", "Object's octets", base.DEC),
    fti_e = ProtoField.uint16("norm.fti.e", "Symbol's octets E", base.DEC),
    fti_b = ProtoField.uint8("norm.fti.b", "Block length B", base.DEC),
    fti_max_n = ProtoField.uint8("norm.fti.max_n", "max_n", base.DEC),
    node = ProtoField.uint32("norm.node", "Node id", base.DEC),
    invalid = ProtoField.uint16("norm.invalid", "Invalid object id", base.DEC),
    stream_length = ProtoField.uint16("norm.stream.length", "Segment's octets", base.DEC),
    stream_start = ProtoField.uint16("norm.stream.msg_start", "Message start", base.DEC),
    stream_offset = ProtoField.uint32("norm.stream.offset", "Offset in the stream", base.DEC),
    stream_end = ProtoField.bool("norm.stream.end", "End of the stream"),
    info = ProtoField.bytes("norm.info", "Info"),
    payload = ProtoField.bytes("norm.payload", "Payload"),
    content = ProtoField.bytes("norm.content", "Content"),
    request = ProtoField.none("norm.request", "Repair request"),
    request_form = ProtoField.uint8("norm.request.form", "Form", base.DEC, FORMS),
    request_flags = ProtoField.uint8("norm.request.flags", "Flags", base.HEX),
    request_segment = ProtoField.bool("norm.request.segment", "SEGMENT", 8, nil, 0x01),
    request_block = ProtoField.bool("norm.request.block", "BLOCK", 8, nil, 0x02),
    request_info = ProtoField.bool("norm.request.info", "INFO", 8, nil, 0x04),
    request_object = ProtoField.bool("norm.request.object", "OBJECT", 8, nil, 0x08),
    request_length = ProtoField.uint16("norm.request.length", "Length", base.DEC),
    item = ProtoField.none("norm.item", "Item"),
    item_fec_id = ProtoField.uint8("norm.item.fec_id", "FEC Encoding ID", base.DEC),
    item_object = ProtoField.uint16("norm.item.object", "Object transport id", base.DEC),
    item_block = ProtoField.uint24("norm.item.block", "Source block number", base.DEC),
    item_symbol = ProtoField.uint8("norm.item.symbol", "Encoding symbol id", base.DEC),
    unread = ProtoField.bytes("norm.unread", "Not read"),
    refused = ProtoField.string("norm.refused", "Refused"),
}
normd.fields = fields

local refused_expert = ProtoExpert.new("norm.expert.refused", "normd refuses this datagram", expert.group.MALFORMED, expert.severity.ERROR)
local unknown_expert = ProtoExpert.new("norm.expert.extension", "An extension that is passed over", expert.group.UNDECODED, expert.severity.NOTE)
normd.experts = { refused_expert, unknown_expert }

normd.prefs.ports = Pref.range("UDP ports", "20000-20017,40000-40017", "The hub's port, then the sender's and the receivers'; a group has the first two", 65535)

-- What stands between the common header and the extensions: each part has its octets and the fields in it.
local SENT = { { 2, "instance" }, { 1, "grtt" }, { 1, "backoff", "gsize" } }
local PLACE = { { 1, "fec_id" }, { 2, "object" }, { 3, "block" }, { 1, "symbol" } }
local BACK = { { 4, "sender" }, { 2, "instance" } }
local STAMP = { { 4, "seconds" }, { 4, "micros" } }

-- The parts of several layouts, one behind the other.
local function joined(...)
    local all = {}
    for _, layout in ipairs({ ... }) do
        for _, part in ipairs(layout) do
            all[#all + 1] = part
        end
    end
    return all
end

local OPAQUE = joined(SENT, { { 1, "sub_type" }, { 3 } })
local LAYOUTS = {
    [INFO] = joined(SENT, { { 1, "flags" }, { 1, "fec_id" }, { 2, "object" } }),
    [DATA] = joined(SENT, { { 1, "flags" } }, PLACE),
    [NACK] = joined(BACK, { { 2 } }, STAMP),
    [ACK] = joined(BACK, { { 1, "ack_type" }, { 1, "ack_id" } }, STAMP),
    [REPORT] = {},
}
local COMMAND_LAYOUTS = {
    [FLUSH] = joined(SENT, { { 1, "sub_type" } }, PLACE),
    [EOT] = OPAQUE,
    [SQUELCH] = joined(SENT, { { 1, "sub_type" } }, PLACE),
    [CC] = OPAQUE,
    [REPAIR_ADV] = joined(SENT, { { 1, "sub_type" }, { 1, "flags" }, { 2 } }),
    [ACK_REQ] = joined(SENT, { { 1, "sub_type" }, { 1 }, { 1, "ack_type" }, { 1, "ack_id" } }),
    [APPLICATION] = OPAQUE,
}
local FLAG_FIELDS = { "flag_repair", "flag_explicit", "flag_info", "flag_unreliable", "flag_file", "flag_stream" }
local REQUEST_FLAG_FIELDS = { "request_segment", "request_block", "request_info", "request_object" }

-- A datagram on its way through the dissector: `at` is the next octet, `refusal` what was refused first.
local function refuse(walk, words, at)
    walk.refusal = walk.refusal or { words = words, at = math.min(at, walk.buffer:len()) }
    return false
end

local function number_at(walk, at, length)
    return walk.buffer(at, length):uint()
end

-- The layout of the datagram's message, that of a short command where its sub-type is none.
local function layout_of(walk)
    if walk.type == CMD then
        return COMMAND_LAYOUTS[walk.sub_type] or OPAQUE
    end
    return LAYOUTS[walk.type]
end

local function length_of(layout)
    local octets = COMMON
    for _, part in ipairs(layout) do
        octets = octets + part[1]
    end
    return octets
end

local function add_common(walk)
    local tree, buffer = walk.tree, walk.buffer
    tree:add(fields.version, buffer(0, 1))
    tree:add(fields.type, buffer(0, 1))
    tree:add(fields.words, buffer(1, 1))
    tree:add(fields.sequence, buffer(2, 2))
    tree:add(fields.source, buffer(4, 4))
end

-- The refusals of the common header, in their order. False where one applies.
local function read_common(walk)
    local length = walk.buffer:len()
    if length < COMMON then
        return refuse(walk, "short " .. length, 0)
    end
    add_common(walk)
    walk.at = COMMON
    local version, words = math.floor(number_at(walk, 0, 1) / 16), number_at(walk, 1, 1)
    walk.type, walk.ends = number_at(walk, 0, 1) % 16, 4 * words
    walk.source = number_at(walk, 4, 4)
    if version ~= VERSION then
        return refuse(walk, "version " .. version, 0)
    end
    if not TYPES[walk.type] then
        return refuse(walk, "type " .. walk.type, 0)
    end
    walk.sub_type = walk.type == CMD and length > SUB_TYPE_AT and number_at(walk, SUB_TYPE_AT, 1) or nil
    local least = length_of(layout_of(walk)) / 4
    if words < least then
        return refuse(walk, string.format("header %d %d", words, least), 1)
    end
    if walk.ends > length then
        return refuse(walk, string.format("past-end %d %d", words, length), 1)
    end
    return true
end

local function add_flags(tree, range, names)
    for _, name in ipairs(names) do
        tree:add(fields[name], range)
    end
end

-- The fields of the layout. False where the FEC Encoding ID is another, or a sub-type is none.
local function read_layout(walk)
    for _, part in ipairs(layout_of(walk)) do
        local range = walk.buffer(walk.at, part[1])
        for i = 2, #part do
            local item = walk.tree:add(fields[part[i]], range)
            walk.values[part[i]] = range:uint()
            if part[i] == "flags" and (walk.type == INFO or walk.type == DATA) then
                add_flags(item, range, FLAG_FIELDS)
            elseif part[i] == "flags" then
                add_flags(item, range, REQUEST_FLAG_FIELDS)
            end
        end
        walk.at = walk.at + part[1]
    end
    if walk.values.fec_id and walk.values.fec_id ~= FEC_ID then
        return refuse(walk, "fec-id " .. walk.values.fec_id, SUB_TYPE_AT)
    end
    if walk.type == CMD and not COMMANDS[walk.sub_type] then
        return refuse(walk, "sub-type " .. walk.sub_type, SUB_TYPE_AT)
    end
    return true
end

local function add_fti(walk, at)
    local buffer = walk.buffer
    local tree = walk.tree:add(fields.fti, buffer(at, 4 * FTI_WORDS))
    tree:add(fields.ext_type, buffer(at, 1))
    tree:add(fields.ext_words, buffer(at + 1, 1))
    tree:add(fields.fti_length, buffer(at + 2, 6), buffer(at + 2, 6):uint64())
    tree:add(fields.fti_e, buffer(at + 8, 2))
    tree:add(fields.fti_b, buffer(at + 10, 1))
    tree:add(fields.fti_max_n, buffer(at + 11, 1))
    walk.values.b = walk.values.b or number_at(walk, at + 10, 1)
end

local function add_unknown(walk, at, size, kind)
    local tree = walk.tree:add(fields.ext, walk.buffer(at, size))
    tree:append_text(" of type " .. kind)
    tree:add(fields.ext_type, walk.buffer(at, 1))
    local content = 1
    if kind < FIXED_EXTENSION then
        tree:add(fields.ext_words, walk.buffer(at + 1, 1))
        content = 2
    end
    tree:add(fields.ext_content, walk.buffer(at + content, size - content))
    tree:add_proto_expert_info(unknown_expert)
end

-- The extensions up to the header's end. False where one has no length or goes past it.
local function read_extensions(walk)
    while walk.at < walk.ends do
        local kind, size = number_at(walk, walk.at, 1), 4
        if kind < FIXED_EXTENSION then
            size = 4 * number_at(walk, walk.at + 1, 1)
        end
        if size == 0 or walk.at + size > walk.ends then
            return refuse(walk, "extension " .. walk.at, walk.at)
        end
        if kind == EXT_FTI and size == 4 * FTI_WORDS then
            add_fti(walk, walk.at)
        else
            add_unknown(walk, walk.at, size, kind)
        end
        walk.at = walk.at + size
    end
    return true
end

-- An item. False where its FEC Encoding ID is another.
local function read_item(walk, parent)
    local at, buffer = walk.at, walk.buffer
    if number_at(walk, at, 1) ~= FEC_ID then
        return refuse(walk, string.format("item-fec %d %d", at, number_at(walk, at, 1)), at)
    end
    local tree = parent:add(fields.item, buffer(at, ITEM))
    tree:add(fields.item_fec_id, buffer(at, 1))
    tree:add(fields.item_object, buffer(at + 2, 2))
    tree:add(fields.item_block, buffer(at + 4, 3))
    tree:add(fields.item_symbol, buffer(at + 7, 1))
    walk.places[#walk.places + 1] = string.format("%d.%d.%d", number_at(walk, at + 2, 2), number_at(walk, at + 4, 3), number_at(walk, at + 7, 1))
    tree:append_text(" " .. walk.places[#walk.places])
    walk.at = at + ITEM
    return true
end

-- A repair request. False where its form, its length or an item of it is refused.
local function read_request(walk)
    local at, buffer, left = walk.at, walk.buffer, walk.buffer:len() - walk.at
    local form = number_at(walk, at, 1)
    if not FORMS[form] then
        return refuse(walk, "form " .. at, at)
    end
    local length = left >= REQUEST_HEAD and number_at(walk, at + 2, 2) or nil
    local unit = form == RANGES and 2 * ITEM or ITEM
    if not length or length > left - REQUEST_HEAD or length % unit ~= 0 then
        return refuse(walk, "length " .. at, at)
    end
    local tree = walk.tree:add(fields.request, buffer(at, REQUEST_HEAD + length))
    tree:append_text(" " .. FORMS[form])
    tree:add(fields.request_form, buffer(at, 1))
    add_flags(tree:add(fields.request_flags, buffer(at + 1, 1)), buffer(at + 1, 1), REQUEST_FLAG_FIELDS)
    tree:add(fields.request_length, buffer(at + 2, 2))
    walk.at = at + REQUEST_HEAD
    while walk.at < at + REQUEST_HEAD + length do
        if not read_item(walk, tree) then
            return false
        end
    end
    return true
end

local function read_requests(walk)
    while walk.at < walk.buffer:len() do
        if not read_request(walk) then
            return false
        end
    end
    return true
end

-- The content of an ACK: of a flush's one item, of any other what stands there. False where the item is refused.
local function read_ack(walk)
    local rest = walk.buffer:len() - walk.at
    if walk.values.ack_type == ACK_FLUSH and rest == ITEM then
        return read_item(walk, walk.tree)
    end
    if rest > 0 then
        walk.tree:add(fields.content, walk.buffer(walk.at, rest))
    end
    walk.rest = walk.values.ack_type == ACK_FLUSH and rest or 0
    walk.is_unmarked = walk.values.ack_type == ACK_FLUSH
    return true
end

-- A list of numbers. What is left over is told when nodes were looked at.
local function read_list(walk, field, octets)
    while walk.at + octets <= walk.buffer:len() do
        walk.tree:add(fields[field], walk.buffer(walk.at, octets))
        walk.places[#walk.places + 1] = tostring(number_at(walk, walk.at, octets))
        walk.at = walk.at + octets
    end
    walk.rest = walk.buffer:len() - walk.at
    return true
end

-- The payload of a DATA, with the head of a stream's segment. A parity symbol of a stream has a head that is coded.
local function read_payload(walk)
    local rest = walk.buffer:len() - walk.at
    if rest == 0 then
        return true
    end
    local tree = walk.tree:add(fields.payload, walk.buffer(walk.at, rest))
    local is_stream = math.floor(walk.values.flags / STREAM) % 2 == 1
    if is_stream and rest >= STREAM_HEAD and walk.values.symbol < (walk.values.b or 256) then
        tree:add(fields.stream_length, walk.buffer(walk.at, 2))
        tree:add(fields.stream_start, walk.buffer(walk.at + 2, 2))
        tree:add(fields.stream_offset, walk.buffer(walk.at + 4, 4))
        tree:add(fields.stream_end, walk.buffer(walk.at, 2), number_at(walk, walk.at, 2) == 0):set_generated()
    end
    return true
end

local function read_rest(walk, field)
    local rest = walk.buffer:len() - walk.at
    if rest > 0 then
        walk.tree:add(fields[field], walk.buffer(walk.at, rest))
    end
    return true
end

-- What follows the header, by message. False where it is refused.
local function read_content(walk)
    if walk.type == INFO then
        return read_rest(walk, "info")
    elseif walk.type == DATA then
        return read_payload(walk)
    elseif walk.type == NACK or walk.sub_type == REPAIR_ADV then
        return read_requests(walk)
    elseif walk.type == ACK then
        return read_ack(walk)
    elseif walk.sub_type == FLUSH or walk.sub_type == ACK_REQ then
        return read_list(walk, "node", 4)
    elseif walk.sub_type == SQUELCH then
        return read_list(walk, "invalid", 2)
    end
    walk.rest = walk.sub_type == EOT and walk.buffer:len() - walk.at or 0
    return read_rest(walk, "content")
end

local function names_no_member(node)
    return node == 0 or node == 4294967295
end

-- What is looked at last: the nodes that are named, and what a list leaves over.
local function check_last(walk)
    if names_no_member(walk.source) or walk.values.sender and names_no_member(walk.values.sender) then
        return refuse(walk, "node", 4)
    end
    if walk.rest > 0 or walk.is_unmarked then
        return refuse(walk, "list " .. walk.rest, walk.buffer:len() - walk.rest)
    end
    return true
end

local function is_opaque(walk)
    return walk.type == REPORT or walk.sub_type == CC or walk.sub_type == APPLICATION
end

-- The whole datagram, in the order in which normd looks at it.
local function read_all(walk)
    if not (read_common(walk) and read_layout(walk)) then
        return false
    end
    if is_opaque(walk) then
        read_rest(walk, "content")
        return check_last(walk)
    end
    return read_extensions(walk) and read_content(walk) and check_last(walk)
end

-- The message's name, as the column has it.
local function name_of(walk)
    if not walk.type then
        return "a datagram"
    end
    return walk.type == CMD and (COMMANDS[walk.sub_type] or "CMD") or TYPES[walk.type] or "type " .. walk.type
end

-- One line on the message: what it is of, the place that it names, and of whom it speaks.
local function summary(walk)
    local values, parts = walk.values, { name_of(walk) }
    if values.object then
        local place = values.symbol and string.format("%d.%d.%d", values.object, values.block, values.symbol) or tostring(values.object)
        parts[#parts + 1] = place
    end
    if (walk.type == INFO or walk.type == DATA) and values.flags and values.flags % 2 == REPAIR then
        parts[#parts + 1] = "repair"
    end
    if #walk.places > 0 then
        parts[#parts + 1] = table.concat(walk.places, " ")
    end
    if walk.source then
        parts[#parts + 1] = "from " .. walk.source
    end
    if walk.refusal then
        parts[#parts + 1] = "refused: " .. walk.refusal.words
    end
    return table.concat(parts, " ")
end

local function add_refusal(walk)
    local at, length = walk.refusal.at, walk.buffer:len()
    local range = at < length and walk.buffer(at, 1) or walk.buffer(0)
    local item = walk.tree:add(fields.refused, range, walk.refusal.words)
    item:set_generated()
    item:add_proto_expert_info(refused_expert, "normd refuses this datagram: " .. walk.refusal.words)
    if walk.at < length then
        walk.tree:add(fields.unread, walk.buffer(walk.at))
    end
end

function normd.dissector(buffer, pinfo, root)
    if buffer:len() == 0 then
        return 0
    end
    local walk = { buffer = buffer, tree = root:add(normd, buffer()), at = 0, values = {}, places = {}, rest = 0 }
    if read_all(walk) then
        walk.tree:add(fields.kind, name_of(walk)):set_generated()
    else
        add_refusal(walk)
    end
    local line = summary(walk)
    pinfo.cols.protocol = "NORM"
    pinfo.cols.info = line
    walk.tree:append_text(", " .. line)
    return buffer:len()
end

local ports = DissectorTable.get("udp.port")
local listened = normd.prefs.ports
ports:add(listened, normd)

function normd.prefs_changed()
    if listened ~= normd.prefs.ports then
        ports:remove(listened, normd)
        listened = normd.prefs.ports
        ports:add(listened, normd)
    end
end
