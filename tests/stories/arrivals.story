desk 53

# Two callers, each with a service of its own and three requests, all at one moment. Whatever comes
# first, twice or too early, both services stand in the end as where all comes in order.
ops 1 0 service v1 setWeight:20 pause setWeight:50 pause => [web Healthy 4 100]
ops 2 0 start v2 => [web Paused 1 20]
ops 3 0 promote => [web Paused 3 50]
dev 1 0 on api service v1 setWeight:20 pause setWeight:50 pause => [api Healthy 4 100]
dev 2 0 on api start v2 => [api Paused 1 20]
dev 3 0 on api promote => [api Paused 3 50]
? 0 service web => {"code":"ok","hold":"none","moment":1767225600,"open":[],"runs":0,
    "service":"web","stable":"v1","status":"Paused","step":3,"version":"v2","weight":50}
? 0 service api => {"code":"ok","hold":"none","moment":1767225600,"open":[],"runs":0,
    "service":"api","stable":"v1","status":"Paused","step":3,"version":"v2","weight":50}

# Now one, now the other, with repeats.
dev 1 0 on api service v1 setWeight:20 pause setWeight:50 pause => [api Healthy 4 100]
ops 1 0 service v1 setWeight:20 pause setWeight:50 pause => [web Healthy 4 100]
dev 1 0 on api service v1 setWeight:20 pause setWeight:50 pause => [api Healthy 4 100]
ops 2 0 start v2 => [web Paused 1 20]
dev 2 0 on api start v2 => [api Paused 1 20]
ops 2 0 start v2 => [web Paused 1 20]
dev 3 0 on api promote => [api Paused 3 50]
ops 1 0 service v1 setWeight:20 pause setWeight:50 pause => [web Healthy 4 100]
ops 3 0 promote => [web Paused 3 50]
dev 3 0 on api promote => [api Paused 3 50]
dev 2 0 on api start v2 => [api Paused 1 20]
ops 3 0 promote => [web Paused 3 50]
? 0 service web => {"code":"ok","hold":"none","moment":1767225600,"open":[],"runs":0,
    "service":"web","stable":"v1","status":"Paused","step":3,"version":"v2","weight":50}
? 0 service api => {"code":"ok","hold":"none","moment":1767225600,"open":[],"runs":0,
    "service":"api","stable":"v1","status":"Paused","step":3,"version":"v2","weight":50}

# The last first, three times over: each time one more request of each caller is settled.
dev 3 0 on api promote => 409 {"code":"ahead","expected":1}
dev 2 0 on api start v2 => 409 {"code":"ahead","expected":1}
dev 1 0 on api service v1 setWeight:20 pause setWeight:50 pause => [api Healthy 4 100]
ops 3 0 promote => 409 {"code":"ahead","expected":1}
ops 2 0 start v2 => 409 {"code":"ahead","expected":1}
ops 1 0 service v1 setWeight:20 pause setWeight:50 pause => [web Healthy 4 100]
dev 3 0 on api promote => 409 {"code":"ahead","expected":2}
dev 2 0 on api start v2 => [api Paused 1 20]
dev 1 0 on api service v1 setWeight:20 pause setWeight:50 pause => [api Healthy 4 100]
ops 3 0 promote => 409 {"code":"ahead","expected":2}
ops 2 0 start v2 => [web Paused 1 20]
ops 1 0 service v1 setWeight:20 pause setWeight:50 pause => [web Healthy 4 100]
dev 3 0 on api promote => [api Paused 3 50]
dev 2 0 on api start v2 => [api Paused 1 20]
dev 1 0 on api service v1 setWeight:20 pause setWeight:50 pause => [api Healthy 4 100]
ops 3 0 promote => [web Paused 3 50]
ops 2 0 start v2 => [web Paused 1 20]
ops 1 0 service v1 setWeight:20 pause setWeight:50 pause => [web Healthy 4 100]
? 0 service web => {"code":"ok","hold":"none","moment":1767225600,"open":[],"runs":0,
    "service":"web","stable":"v1","status":"Paused","step":3,"version":"v2","weight":50}
? 0 service api => {"code":"ok","hold":"none","moment":1767225600,"open":[],"runs":0,
    "service":"api","stable":"v1","status":"Paused","step":3,"version":"v2","weight":50}


# Ticks change nothing for those that come after them: the last one is answered alike with others
# before it and without, and the history is the same.
ops 1 0 on api service v1 pause:10 setWeight:30 pause:20 => [api Healthy 3 100]
ops 2 0 on api start v2 => [api Paused 0 0]
ops 3 9 on api tick => [api Paused 0 0]
ops 4 10 on api tick => [api Paused 2 30]
ops 5 31 on api tick => [api Healthy 3 100]
ops 6 40 on api tick => [api Healthy 3 100]
? 40 history api => {"code":"ok","lines":[
    "2026-01-01T00:00:00Z created v1","2026-01-01T00:00:00Z start v2",
    "2026-01-01T00:00:00Z step 0 pause 10s","2026-01-01T00:00:10Z step 1 setWeight 30",
    "2026-01-01T00:00:10Z step 2 pause 20s","2026-01-01T00:00:30Z done v2"],"service":"api"}

ops 1 0 on api service v1 pause:10 setWeight:30 pause:20 => [api Healthy 3 100]
ops 2 0 on api start v2 => [api Paused 0 0]
ops 3 40 on api tick => [api Healthy 3 100]
? 40 history api => {"code":"ok","lines":[
    "2026-01-01T00:00:00Z created v1","2026-01-01T00:00:00Z start v2",
    "2026-01-01T00:00:00Z step 0 pause 10s","2026-01-01T00:00:10Z step 1 setWeight 30",
    "2026-01-01T00:00:10Z step 2 pause 20s","2026-01-01T00:00:30Z done v2"],"service":"api"}
