-- Which service a request to a desk adds: the converter `added_service` of HAProxy, which
-- desks.haproxy.cfg gives the body of each request. It returns the name in the manifest of a
-- `service`, an empty text if the body adds no service, and "?" if two readers of JSON could find
-- different names: if a key occurs twice in an object, or if objects and lists are nested too deep.
-- It accepts more than JSON allows, such as a control character in a string: the desk rejects that.
local DEEPEST = 100

-- What ends the reading at once.
local UNCLEAR, NO_JSON = {}, {}

local ESCAPES = { b = "\b", f = "\f", n = "\n", r = "\r", t = "\t" }

local function unescaped(text)
    return (text:gsub("\\(.)(%x?%x?%x?%x?)", function(mark, digits)
        if mark == "u" and #digits == 4 then return utf8.char(tonumber(digits, 16)) end
        return (ESCAPES[mark] or mark) .. digits
    end))
end

local read_value

local function read_string(text, at)
    local from = at + 1
    while true do
        local found = text:find('["\\]', from)
        if not found then error(NO_JSON) end
        if text:sub(found, found) == '"' then
            return unescaped(text:sub(at + 1, found - 1)), found + 1
        end
        from = found + 2
    end
end

local function skip(text, at)
    return text:find("[^ \t\r\n]", at) or error(NO_JSON)
end

-- The members of an object or a list, which begin at `at`.
local function read_members(text, at, depth, closing)
    if depth > DEEPEST then error(UNCLEAR) end
    local found = {}
    at = skip(text, at)
    if text:sub(at, at) == closing then return found, at + 1 end
    while true do
        local key = #found + 1
        if closing == "}" then
            if text:sub(at, at) ~= '"' then error(NO_JSON) end
            key, at = read_string(text, at)
            at = skip(text, at)
            if text:sub(at, at) ~= ":" then error(NO_JSON) end
            at = skip(text, at + 1)
            if found[key] ~= nil then error(UNCLEAR) end
        end
        found[key], at = read_value(text, at, depth)
        at = skip(text, at)
        local mark = text:sub(at, at)
        if mark == closing then return found, at + 1 end
        if mark ~= "," then error(NO_JSON) end
        at = skip(text, at + 1)
    end
end

function read_value(text, at, depth)
    local mark = text:sub(at, at)
    if mark == '"' then return read_string(text, at) end
    if mark == "{" then return read_members(text, at + 1, depth + 1, "}") end
    if mark == "[" then return read_members(text, at + 1, depth + 1, "]") end
    -- a number, true, false or null
    local last = select(2, text:find("^[%w+.-]+", at))
    if not last then error(NO_JSON) end
    return false, last + 1
end

local function added_service(text)
    local found = read_value(text, skip(text, 1), 0)
    for _, key in ipairs({ "service", "manifest", "metadata", "name" }) do
        found = type(found) == "table" and found[key]
    end
    return type(found) == "string" and found or ""
end

core.register_converters("added_service", function(text)
    local is_read, found = pcall(added_service, text)
    if is_read then return found end
    return found == UNCLEAR and "?" or ""
end)
