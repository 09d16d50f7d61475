-- Has tshark read SMB2 over TCP on whichever port: each message follows its length of 24 bits (MS-SMB2 2.1). By itself tshark does so
-- on port 445 alone; on a port that is decoded as NBSS a length has 17 bits.
local direct = Proto("smb2_tcp", "SMB2 over TCP")

local function begins(tvb)
    return tvb:len() >= 8 and tvb(0, 1):uint() == 0 and tvb(5, 3):string() == "SMB" and tvb(4, 1):uint() >= 0xfc
end

local function message(tvb, pinfo, tree)
    if begins(tvb) then
        DissectorTable.try_heuristics("netbios", tvb(4):tvb(), pinfo, tree)
    end
end

-- How many bytes of the next message are still to come, as far as is known.
local function lacks(tvb, offset)
    local rest = tvb:len() - offset
    if rest < 4 then
        return DESEGMENT_ONE_MORE_SEGMENT
    end
    return math.max(0, 4 + tvb(offset + 1, 3):uint() - rest)
end

-- (dissect_tcp_pdus of tshark 4.0 ends tshark by a signal where the first packet of a connection has a part of a message.)
function direct.dissector(tvb, pinfo, tree)
    if tvb:len() < tvb:reported_len() then
        tree:add(direct, tvb(0))
        return tvb:len()
    end
    local offset = 0
    while offset < tvb:len() do
        local missing = lacks(tvb, offset)
        if missing > 0 then
            pinfo.desegment_offset, pinfo.desegment_len = offset, missing
            break
        end
        local size = 4 + tvb(offset + 1, 3):uint()
        message(tvb(offset, size):tvb(), pinfo, tree)
        offset = offset + size
    end
    return tvb:len()
end

direct:register_heuristic("tcp", function(tvb, pinfo, tree)
    if not begins(tvb) then
        return false
    end
    pinfo.conversation = direct
    direct.dissector(tvb, pinfo, tree)
    return true
end)
DissectorTable.get("tcp.port"):add_for_decode_as(direct)
