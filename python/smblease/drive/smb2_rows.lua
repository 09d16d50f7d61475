-- Has tshark print a row for each packet that has to do with SMB2, in one reading of the file; drive/packets.py reads it. Other lines
-- say how far it is, and that a packet is of an earlier time than the one before it.
local FILTER = "smb2 || smb2_tcp || tcp.flags.fin == 1 || tcp.flags.reset == 1 || tcp.analysis.lost_segment"
    .. " || tcp.analysis.ack_lost_segment || (tcp && frame.cap_len < frame.len)"
-- from one line on how far it is to the next
local STRIDE = 20000
-- stands behind a frame of which the capture lacks the end
local CUT = "+"
local PLAIN, ENCRYPTED, COMPRESSED = 0xfe, 0xfd, 0xfc
local HEADER = 64
-- of what isn't read here only the header counts (MS-SMB2 2.2.41, 2.2.42)
local HEADERS = { [ENCRYPTED] = 52, [COMPRESSED] = 16 }
local READ, WRITE = 8, 9

local stream, flags = Field.new("tcp.stream"), Field.new("tcp.flags")
local acknowledged, next_sequence = Field.new("tcp.ack"), Field.new("tcp.nxtseq")
local analysis = Field.new("tcp.analysis.flags")
local lost, not_seen = Field.new("tcp.analysis.lost_segment"), Field.new("tcp.analysis.ack_lost_segment")
local messages, cut_short = Field.new("smb2"), Field.new("smb2_tcp")

-- (Numbers of later versions of Lua that aren't whole by their type would have a point.)
local function digits(number)
    return string.format("%d", number)
end

local function value(field)
    local found = field()
    return digits(found and found.value or 0)
end

-- The bytes at a place of a source, as far as they are there.
local function bytes_at(source, place, count)
    local there = math.min(count, source:len() - place)
    return there > 0 and source:raw(place, there) or ""
end

-- A number of four bytes; 0 where it isn't there.
local function number_at(text, place)
    local one, two, three, four = text:byte(place + 1, place + 4)
    return four and one + 256 * (two + 256 * (three + 256 * four)) or 0
end

-- How many bytes a frame has, by the length that comes before it on TCP; what was decrypted has none, and is a frame.
local function size(source, start)
    if start >= 4 then
        local kind, high, middle, low = source:raw(start - 4, 4):byte(1, 4)
        if kind == 0 then
            return low + 256 * (middle + 256 * high)
        end
    end
    return source:len() - start
end

-- Where the last message of a compound begins, and its header; NextCommand is at 20.
local function last_message(source, start, finish, header)
    local place, step = start, number_at(header, 20)
    while step >= HEADER and place + step < finish do
        place = place + step
        header = bytes_at(source, place, HEADER)
        step = number_at(header, 20)
    end
    return place, header
end

-- What of a message is left where the data that it carries are taken off, by its Command and Flags.
local function without_data(header)
    local command, answers = header:byte(13), (header:byte(17) or 0) % 2 == 1
    if command == READ and answers then
        return 80
    elseif command == WRITE and not answers then
        return 112
    end
end

-- The end of what is printed of a frame.
local function finish_of(source, start, finish, header)
    local kind = header:byte(1)
    if kind ~= PLAIN then
        return math.min(finish, start + (HEADERS[kind] or HEADER))
    end
    local place, last = last_message(source, start, finish, header)
    local kept = without_data(last)
    return kept and math.min(finish, place + kept) or finish
end

local function frame_at(source, start, header)
    local whole, there = start + size(source, start), source:len()
    local finish = finish_of(source, start, math.min(whole, there), header)
    return {
        text = source(start, finish - start):bytes():tohex(true) .. (whole <= there and "" or CUT),
        kind = header:byte(1),
        -- OriginalMessageSize (2.2.41)
        original = number_at(header, 36),
    }
end

-- Whether a message is the next one of a compound; the one before it says where that begins.
local function is_next(item, before)
    return before ~= nil and before.step > 0 and item.offset == before.start + before.step
end

-- Whether a frame is what was decrypted of the one before it.
local function is_decrypted(source, start, before)
    return before ~= nil and before.kind == ENCRYPTED and start == 0 and source:len() == before.original
end

-- The frames of a packet, each a message or a compound. tshark has an item for each message, and has those of what it decrypted
-- after the one that it decrypted.
local function frames_of()
    local frames, before = {}, nil
    for _, item in ipairs({ messages() }) do
        local source, start = item.source, item.offset
        local header = bytes_at(source, start, HEADER)
        if not is_next(item, before) then
            local place = is_decrypted(source, start, frames[#frames]) and #frames or #frames + 1
            frames[place] = frame_at(source, start, header)
        end
        before = { start = start, step = header:byte(1) == PLAIN and number_at(header, 20) or 0 }
    end
    return frames
end

local function address(of, port)
    local text = tostring(of)
    return string.format(text:find(":", 1, true) and "[%s]:%d" or "%s:%d", text, port)
end

-- The addresses of a packet, which those of one connection and one port have all.
local known = {}

local function addresses(pinfo, connection)
    local key = pinfo.src_port ~= pinfo.dst_port and connection .. " " .. pinfo.src_port
    local found = key and known[key]
    if not found then
        found = address(pinfo.src, pinfo.src_port) .. " " .. address(pinfo.dst, pinfo.dst_port)
        if key then
            known[key] = found
        end
    end
    return found
end

-- The message with which a packet begins that was cut short, as far as it is there: its header says who is the server.
local function begun()
    local item = cut_short()
    local text = item and item.len > 8 and item.range(4, math.min(item.len - 4, HEADER)):bytes():tohex(true)
    return text and text:sub(3, 8) == "534d42" and text .. CUT
end

local function is_gap()
    return analysis() and (lost() or not_seen())
end

local function row(pinfo)
    local on, frames = stream(), frames_of()
    local connection = on and digits(on.value) or "-"
    local words = {
        "packet", digits(pinfo.number), string.format("%.9f", pinfo.rel_ts), connection,
        on and addresses(pinfo, connection) or address(pinfo.src, pinfo.src_port) .. " " .. address(pinfo.dst, pinfo.dst_port),
        value(flags), value(acknowledged), value(next_sequence), is_gap() and "gap" or "-",
        pinfo.caplen < pinfo.len and "cut" or "-",
    }
    for _, frame in ipairs(frames) do
        words[#words + 1] = frame.text
    end
    if #frames == 0 then
        words[#words + 1] = begun() or nil
    end
    return table.concat(words, " ")
end

local of_smb2 = Listener.new(nil, FILTER)

function of_smb2.packet(pinfo)
    print(row(pinfo))
end

local of_all, is_ordered = Listener.new(), true

function of_all.packet(pinfo)
    if is_ordered and pinfo.delta_ts < 0 then
        is_ordered = false
        print("unordered")
    end
    if pinfo.number % STRIDE == 0 then
        print("at " .. digits(pinfo.number))
    end
end
