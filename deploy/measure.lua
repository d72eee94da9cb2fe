-- For deploy/measure, by wrk: asks for the targets after "--" in turn, as the host of the target's team or, for a vote, as bea.
local targets, number = {}, 0

function init(words)
    targets = words
end

function request()
    number = number + 1
    local target = targets[number % #targets + 1]
    if target:match("/vote$") then
        return wrk.format("POST", target, { Authorization = "Bearer t-bea" }, os.getenv("OFFICE_VOTE"))
    end
    local team = target:match("^/issued/([a-z]+)/")
    local fields = { Connection = os.getenv("OFFICE_CONNECTION") }
    if team then
        fields.Authorization = "Bearer t-" .. team .. "-host"
    end
    return wrk.format("GET", target, fields)
end

function done(summary, latency, requests)
    local errors = summary.errors
    local failed = errors.connect + errors.read + errors.write + errors.status + errors.timeout
    io.write(string.format("RATE %.0f FAILED %d\n", summary.requests / summary.duration * 1000000, failed))
end
