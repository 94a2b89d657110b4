-- The job of the image "240 bytes decoded" (bench/src/images/decode.rs) as one would write it in Lua, for Lua 5.4 and
-- LuaJIT. Nothing overflows: 240 bytes add up to 61,200 at most.

-- Keeps the greatest byte, adds all up and shows each to the watches.
local function decode(frame, watches)
    local greatest, sum = 0, 0
    for i = 1, #frame do
        local byte = frame:byte(i)
        if greatest < byte then
            greatest = byte
        end
        sum = sum + byte
        for w = 1, #watches do
            watches[w](byte)
        end
    end
    return greatest, sum
end

-- A watch that changes the sum of the decoder, which is a local variable of the function that calls it.
local function harmful()
    for index = 1, 20 do
        if debug.getlocal(2, index) == "sum" then
            debug.setlocal(2, index, 0)
        end
    end
end

-- Decodes a frame with a watch that prints the bytes below 12, or with one that does harm.
local function run(frame, harm)
    local log = {}
    local function honest(byte)
        if byte < 12 then
            log[#log + 1] = byte
        end
    end
    local greatest, sum = decode(frame, { harm and harmful or honest })
    return { result = sum - greatest, greatest = greatest, sum = sum, log = log }
end

local function stop()
    error("out of steps")
end

-- The same with at most so many instructions; nil if they do not suffice.
local function limited(frame, harm, limit)
    debug.sethook(stop, "", limit)
    local done, left = pcall(run, frame, harm)
    debug.sethook()
    return done and left or nil
end

-- The first line of input is the frame in hexadecimal. A further line is a number of calls, the limit of each or 0, and
-- the watch. The answer is a line: nanoseconds of one call (processor time), then what the last call left, nothing if it
-- was stopped.
local frame = io.read("l"):gsub("%x%x", function(digits)
    return string.char(tonumber(digits, 16))
end)
for line in io.lines() do
    local calls, limit, watch = line:match("(%d+) (%d+) (%a+)")
    calls, limit = tonumber(calls), tonumber(limit)
    local call = limit > 0 and limited or run
    local left
    local start = os.clock()
    for _ = 1, calls do
        left = call(frame, watch == "harmful", limit)
    end
    local nanoseconds = (os.clock() - start) * 1e9 / calls
    io.write(string.format("%.1f", nanoseconds))
    if left then
        io.write(" ", left.result, " ", left.greatest, " ", left.sum, " ", table.concat(left.log, " "))
    end
    io.write("\n")
    io.flush()
end
