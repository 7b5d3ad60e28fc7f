-- Wireshark dissector for the messages of dcpctl, over UDP and TCP. It shows each message as the line that
-- `dcpctl decode` prints, or the place and the reason of bytes that are no message.
--
-- usage: tshark -X lua_script:tools/dcp.lua -r CAPTURE, or copy it to Wireshark's folder of personal plugins.
--
-- The ports are a preference (dcp.ports), 9000 to 9016 at first; for others, `Decode As`. tools/make_dissector makes
-- tools/dcp.lua of the tables of docs/FORMATS.md, so nobody edits that file.

local layouts = {
  [0x01] = { name = "STC_register", fields = { { "pdu_seq_id", "u16" }, { "receiver", "u8" }, { "state_id", "state" }, { "slave_uuid", "uuid" }, { "op_mode", "u8" }, { "major_version", "u8" }, { "minor_version", "u8" } } },
  [0x02] = { name = "STC_deregister", fields = { { "pdu_seq_id", "u16" }, { "receiver", "u8" }, { "state_id", "state" } } },
  [0x03] = { name = "STC_prepare", fields = { { "pdu_seq_id", "u16" }, { "receiver", "u8" }, { "state_id", "state" } } },
  [0x04] = { name = "STC_configure", fields = { { "pdu_seq_id", "u16" }, { "receiver", "u8" }, { "state_id", "state" } } },
  [0x05] = { name = "STC_initialize", fields = { { "pdu_seq_id", "u16" }, { "receiver", "u8" }, { "state_id", "state" } } },
  [0x06] = { name = "STC_run", fields = { { "pdu_seq_id", "u16" }, { "receiver", "u8" }, { "state_id", "state" }, { "start_time", "i64" } } },
  [0x07] = { name = "STC_do_step", fields = { { "pdu_seq_id", "u16" }, { "receiver", "u8" }, { "state_id", "state" }, { "steps", "u32" } } },
  [0x08] = { name = "STC_send_outputs", fields = { { "pdu_seq_id", "u16" }, { "receiver", "u8" }, { "state_id", "state" } } },
  [0x09] = { name = "STC_stop", fields = { { "pdu_seq_id", "u16" }, { "receiver", "u8" }, { "state_id", "state" } } },
  [0x0a] = { name = "STC_reset", fields = { { "pdu_seq_id", "u16" }, { "receiver", "u8" }, { "state_id", "state" } } },
  [0x20] = { name = "CFG_time_res", fields = { { "pdu_seq_id", "u16" }, { "receiver", "u8" }, { "numerator", "u32" }, { "denominator", "u32" } } },
  [0x21] = { name = "CFG_steps", fields = { { "pdu_seq_id", "u16" }, { "receiver", "u8" }, { "data_id", "u16" }, { "steps", "u32" } } },
  [0x22] = { name = "CFG_input", fields = { { "pdu_seq_id", "u16" }, { "receiver", "u8" }, { "data_id", "u16" }, { "pos", "u16" }, { "vr", "u64" }, { "source_type", "type" } } },
  [0x23] = { name = "CFG_output", fields = { { "pdu_seq_id", "u16" }, { "receiver", "u8" }, { "data_id", "u16" }, { "pos", "u16" }, { "vr", "u64" } } },
  [0x24] = { name = "CFG_clear", fields = { { "pdu_seq_id", "u16" }, { "receiver", "u8" } } },
  [0x25] = { name = "CFG_target_network_information", fields = { { "pdu_seq_id", "u16" }, { "receiver", "u8" }, { "data_id", "u16" }, { "protocol", "u8" }, { "port", "u16" }, { "ip", "ip" } } },
  [0x26] = { name = "CFG_source_network_information", fields = { { "pdu_seq_id", "u16" }, { "receiver", "u8" }, { "data_id", "u16" }, { "protocol", "u8" }, { "port", "u16" }, { "ip", "ip" } } },
  [0x27] = { name = "CFG_parameter", fields = { { "pdu_seq_id", "u16" }, { "receiver", "u8" }, { "vr", "u64" }, { "type", "type" }, { "value", "value" } } },
  [0x28] = { name = "CFG_tunable_parameter", fields = { { "pdu_seq_id", "u16" }, { "receiver", "u8" }, { "param_id", "u16" }, { "pos", "u16" }, { "vr", "u64" }, { "type", "type" } } },
  [0x29] = { name = "CFG_param_network_information", fields = { { "pdu_seq_id", "u16" }, { "receiver", "u8" }, { "param_id", "u16" }, { "protocol", "u8" }, { "port", "u16" }, { "ip", "ip" } } },
  [0x2a] = { name = "CFG_logging", fields = { { "pdu_seq_id", "u16" }, { "receiver", "u8" }, { "category", "u8" }, { "level", "u8" }, { "mode", "u8" } } },
  [0x2b] = { name = "CFG_scope", fields = { { "pdu_seq_id", "u16" }, { "receiver", "u8" }, { "data_id", "u16" }, { "scope", "u8" } } },
  [0x80] = { name = "INF_state", fields = { { "pdu_seq_id", "u16" }, { "receiver", "u8" } } },
  [0x81] = { name = "INF_error", fields = { { "pdu_seq_id", "u16" }, { "receiver", "u8" } } },
  [0x82] = { name = "INF_log", fields = { { "pdu_seq_id", "u16" }, { "receiver", "u8" }, { "category", "u8" }, { "max_entries", "u8" } } },
  [0xb0] = { name = "RSP_ack", fields = { { "resp_seq_id", "u16" }, { "sender", "u8" } } },
  [0xb1] = { name = "RSP_nack", fields = { { "resp_seq_id", "u16" }, { "sender", "u8" }, { "exp_seq_id", "u16" }, { "error_code", "u16" } } },
  [0xb2] = { name = "RSP_state_ack", fields = { { "resp_seq_id", "u16" }, { "sender", "u8" }, { "state_id", "state" } } },
  [0xb3] = { name = "RSP_error_ack", fields = { { "resp_seq_id", "u16" }, { "sender", "u8" }, { "error_code", "u16" } } },
  [0xb4] = { name = "RSP_log_ack", fields = { { "resp_seq_id", "u16" }, { "sender", "u8" }, { "entries", "rest" } } },
  [0xe0] = { name = "NTF_state_changed", fields = { { "sender", "u8" }, { "state_id", "state" } } },
  [0xe1] = { name = "NTF_log", fields = { { "sender", "u8" }, { "category", "u8" }, { "level", "u8" }, { "text", "rest" } } },
  [0xf0] = { name = "DAT_input_output", fields = { { "pdu_seq_id", "u16" }, { "data_id", "u16" }, { "payload", "rest" } } },
  [0xf1] = { name = "DAT_parameter", fields = { { "pdu_seq_id", "u16" }, { "param_id", "u16" }, { "payload", "rest" } } },
}
local states = {
  [0] = "ALIVE",
  [1] = "CONFIGURATION",
  [2] = "PREPARING",
  [3] = "PREPARED",
  [4] = "CONFIGURING",
  [5] = "CONFIGURED",
  [6] = "INITIALIZING",
  [7] = "INITIALIZED",
  [8] = "SENDING_I",
  [9] = "SYNCHRONIZING",
  [10] = "SYNCHRONIZED",
  [11] = "RUNNING",
  [12] = "COMPUTING",
  [13] = "COMPUTED",
  [14] = "SENDING_D",
  [15] = "STOPPING",
  [16] = "STOPPED",
  [17] = "ERROR_HANDLING",
  [18] = "ERROR_RESOLVED",
}
local codes = {
  [0] = "none",
  [1] = "SEQUENCE",
  [2] = "WRONG_STATE",
  [3] = "NOT_SUPPORTED",
  [4] = "UNKNOWN_VR",
  [5] = "TYPE_MISMATCH",
  [6] = "POSITION",
  [7] = "INCOMPLETE_CONFIG",
  [8] = "INPUTS_MISSING",
  [9] = "BAD_STEPS",
  [10] = "UUID_MISMATCH",
  [11] = "VERSION",
  [12] = "OP_MODE",
  [13] = "VALUE_RANGE",
  [14] = "IN_ERROR_STATE",
  [32] = "MODEL_OVERFLOW",
  [33] = "DIVIDE_BY_ZERO",
  [34] = "OUT_OF_RANGE",
  [35] = "HEARTBEAT_MISSED",
}
local types = {
  [0] = "uint8",
  [1] = "uint16",
  [2] = "uint32",
  [3] = "uint64",
  [4] = "int8",
  [5] = "int16",
  [6] = "int32",
  [7] = "int64",
}
local widths = {
  u8 = 1,
  u16 = 2,
  u32 = 4,
  u64 = 8,
  i64 = 8,
  state = 1,
  type = 1,
  uuid = 16,
  ip = 4,
}
local most_bytes = 1024

local dcp = Proto("dcp", "Distributed Co-Simulation Protocol of dcpctl")

-- What Wireshark shows a field of a kind as. A value has a width of its own, and is shown as text.
local function proto_field(id, field, kind)
  if kind == "state" then return ProtoField.uint8(id, field, base.DEC, states) end
  if kind == "type" then return ProtoField.uint8(id, field, base.DEC, types) end
  if field == "error_code" then return ProtoField.uint16(id, field, base.DEC, codes) end
  if kind == "u8" then return ProtoField.uint8(id, field) end
  if kind == "u16" then return ProtoField.uint16(id, field) end
  if kind == "u32" then return ProtoField.uint32(id, field) end
  if kind == "u64" then return ProtoField.uint64(id, field) end
  if kind == "i64" then return ProtoField.int64(id, field) end
  if kind == "rest" then return ProtoField.bytes(id, field) end
  return ProtoField.string(id, field)
end

-- A field of one name is of one kind in all messages.
local fields, names = {}, {}
for code, layout in pairs(layouts) do
  names[code] = layout.name
  for _, part in ipairs(layout.fields) do
    fields[part[1]] = fields[part[1]] or proto_field("dcp." .. part[1], part[1], part[2])
  end
end
fields.code = ProtoField.uint8("dcp.code", "code", base.HEX, names)
fields.line = ProtoField.string("dcp.line", "line")
fields.refused = ProtoField.string("dcp.refused", "no message")
fields.greeting = ProtoField.string("dcp.greeting", "greeting of")
local all = {}
for _, field in pairs(fields) do table.insert(all, field) end
dcp.fields = all
dcp.prefs.ports = Pref.range("Ports", "9000-9016", "ports of the ends of a scenario", 65535)

local no_message = ProtoExpert.new("dcp.no_message", "no message", expert.group.MALFORMED, expert.severity.WARN)
dcp.experts = { no_message }

-- The printed form of a uuid.
local function uuid_text(bytes)
  local digits = bytes:bytes():tohex(true)
  return table.concat({ digits:sub(1, 8), digits:sub(9, 12), digits:sub(13, 16), digits:sub(17, 20), digits:sub(21) }, "-")
end

-- The printed form of a number.
local function number_text(bytes, is_signed)
  if is_signed then return tostring(bytes:len() == 8 and bytes:le_int64() or bytes:le_int()) end
  return tostring(bytes:len() == 8 and bytes:le_uint64() or bytes:le_uint())
end

-- The printed form of a field; a value goes by the type before it.
local function text_of(kind, bytes, value_type)
  if kind == "state" then return states[bytes:uint()] end
  if kind == "uuid" then return uuid_text(bytes) end
  if kind == "ip" then return tostring(bytes:le_ipv4()) end
  return number_text(bytes, kind == "i64" or kind == "value" and value_type > 3)
end

-- Adds a field to the tree. Its number is read by Wireshark where it shows it as one.
local function add_field(tree, field, kind, bytes, text)
  if kind == "uuid" or kind == "ip" or kind == "value" then
    tree:add(fields[field], bytes, text)
  else
    tree:add_le(fields[field], bytes)
  end
end

-- Adds one message to the tree, and answers its line, or nil with the place and the reason.
local function message(tvb, tree)
  local length = tvb:len()
  if length == 0 then return nil, "byte 0 EMPTY" end
  local layout = layouts[tvb(0, 1):uint()]
  if not layout then return nil, "byte 0 UNKNOWN_TYPE" end
  tree:add(fields.code, tvb(0, 1))
  local line, at, value_type = layout.name, 1, 0
  for _, part in ipairs(layout.fields) do
    local field, kind = part[1], part[2]
    if kind == "rest" then
      if length > most_bytes then return nil, "byte " .. most_bytes .. " TOO_LONG" end
      line = line .. " " .. field .. "="
      if at < length then
        tree:add(fields[field], tvb(at))
        line = line .. tvb(at):bytes():tohex(true)
      end
      return line
    end
    local width = kind == "value" and math.floor(2 ^ (value_type % 4)) or widths[kind]
    if length < at + width then return nil, "byte " .. length .. " SHORT" end
    local bytes = tvb(at, width)
    if kind == "state" and not states[bytes:uint()] then return nil, "byte " .. at .. " BAD_STATE" end
    if kind == "type" then
      value_type = bytes:uint()
      if not types[value_type] then return nil, "byte " .. at .. " BAD_TYPE" end
    end
    local text = text_of(kind, bytes, value_type)
    add_field(tree, field, kind, bytes, text)
    line, at = line .. " " .. field .. "=" .. text, at + width
  end
  if at < length then return nil, "byte " .. at .. " LONG" end
  return line
end

-- Adds to what the packet is told to be; over TCP a packet may have several messages.
local function tell(pinfo, text)
  pinfo.cols.info:append((tostring(pinfo.cols.info) == "" and "" or " | ") .. text)
end

-- Shows the bytes of one message in a tree of their own.
local function show(tvb, pinfo, root)
  local tree = root:add(dcp, tvb())
  local line, reason = message(tvb, tree)
  if line then
    tree:add(fields.line, tvb(), line):set_generated()
    tree:append_text(": " .. line)
  else
    tree:add(fields.refused, tvb(), reason):set_generated()
    tree:add_proto_expert_info(no_message, "no message: " .. reason)
  end
  tell(pinfo, line or "no message: " .. reason)
end

-- Asks for more bytes of a stream, from this place on.
local function wait_for(pinfo, at, count)
  pinfo.desegment_offset = at
  pinfo.desegment_len = count or DESEGMENT_ONE_MORE_SEGMENT
end

-- Over TCP a connection begins with the sender's ip and port, and then has frames. A length is at most 1,024, and the
-- first part of an ip is not 0, so a greeting is told from a frame by its first four bytes.
local function stream(tvb, pinfo, root)
  local at, length = 0, tvb:len()
  while at < length do
    if length - at < 4 then
      wait_for(pinfo, at)
      return length
    end
    local size = tvb(at, 4):le_uint()
    local whole = size > most_bytes and 6 or 4 + size
    if length - at < whole then
      wait_for(pinfo, at, whole - (length - at))
      return length
    end
    if size > most_bytes then
      local sender = tostring(tvb(at, 4):le_ipv4()) .. ":" .. tvb(at + 4, 2):le_uint()
      root:add(dcp, tvb(at, 6)):add(fields.greeting, tvb(at, 6), sender)
      tell(pinfo, "greeting of " .. sender)
    elseif size > 0 then
      show(tvb(at + 4, size):tvb(), pinfo, root)
    else
      root:add(dcp, tvb(at, 4)):add_proto_expert_info(no_message, "a frame of no length")
    end
    at = at + whole
  end
  return length
end

function dcp.dissector(tvb, pinfo, root)
  pinfo.cols.protocol = "DCP"
  pinfo.cols.info:clear()
  if pinfo.port_type == 2 then return stream(tvb, pinfo, root) end
  show(tvb, pinfo, root)
  return tvb:len()
end

local ports
local function listen()
  for _, name in ipairs({ "udp.port", "tcp.port" }) do
    local tables = DissectorTable.get(name)
    if ports then tables:remove(ports, dcp) end
    tables:add(dcp.prefs.ports, dcp)
  end
  ports = dcp.prefs.ports
end
dcp.prefs_changed = listen
listen()
