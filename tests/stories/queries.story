desk 102

# A service that is not there, that is new, and that is released; and what is not there.
? 0 service web => 404 unknown-service
ops 1 0 service v1 setWeight:20 pause setWeight:50 pause => [web Healthy 4 100]
? 0 service web => {"code":"ok","hold":"none","moment":1767225600,"open":[],"runs":0,
    "service":"web","stable":"v1","status":"Healthy","step":4,"version":"v1","weight":100}
ops 2 1 start v2 => [web Paused 1 20]
? 2 service web => {"code":"ok","hold":"none","moment":1767225602,"open":[],"runs":0,
    "service":"web","stable":"v1","status":"Paused","step":1,"version":"v2","weight":20}
? 2 service api => 404 unknown-service
? 2 history api => 404 unknown-service
? 2 run api 1 => 404 unknown-service
? 2 run web 1 => 404 unknown-run
? 2 history web => {"code":"ok","lines":[
    "2026-01-01T00:00:00Z created v1","2026-01-01T00:00:01Z start v2",
    "2026-01-01T00:00:01Z step 0 setWeight 20","2026-01-01T00:00:01Z step 1 pause"
    ],"service":"web"}


# Steps that end by time are shown as ended; a request after a query finds the service as it was.
ops 1 0 service v1 pause:10 setWeight:30 pause:20 => [web Healthy 3 100]
ops 2 0 start v2 => [web Paused 0 0]
? 10 service web => {"code":"ok","hold":"none","moment":1767225610,"open":[],"runs":0,
    "service":"web","stable":"v1","status":"Paused","step":2,"version":"v2","weight":30}
? 30 service web => {"code":"ok","hold":"none","moment":1767225630,"open":[],"runs":0,
    "service":"web","stable":"v2","status":"Healthy","step":3,"version":"v2","weight":100}
? 9 history web => {"code":"ok","lines":[
    "2026-01-01T00:00:00Z created v1","2026-01-01T00:00:00Z start v2",
    "2026-01-01T00:00:00Z step 0 pause 10s"],"service":"web"}
? 10 history web => {"code":"ok","lines":[
    "2026-01-01T00:00:00Z created v1","2026-01-01T00:00:00Z start v2",
    "2026-01-01T00:00:00Z step 0 pause 10s","2026-01-01T00:00:10Z step 1 setWeight 30",
    "2026-01-01T00:00:10Z step 2 pause 20s"],"service":"web"}
ops 3 9 tick => [web Paused 0 0]
ops 4 40 tick => [web Healthy 3 100]
? 40 history web => {"code":"ok","lines":[
    "2026-01-01T00:00:00Z created v1","2026-01-01T00:00:00Z start v2",
    "2026-01-01T00:00:00Z step 0 pause 10s","2026-01-01T00:00:10Z step 1 setWeight 30",
    "2026-01-01T00:00:10Z step 2 pause 20s","2026-01-01T00:00:30Z done v2"],"service":"web"}
? 29 service web => {"code":"ok","hold":"none","moment":1767225640,"open":[],"runs":0,
    "service":"web","stable":"v2","status":"Healthy","step":3,"version":"v2","weight":100}


# A query before the service's last moment; two requests of one moment with queries between them,
# and without; and a repeat and a number ahead, which pass no time.
ops 1 0 service v1 pause:10 setWeight:30 pause:20 => [web Healthy 3 100]
ops 2 5 start v2 => [web Paused 0 0]
? 3 service web => {"code":"ok","hold":"none","moment":1767225605,"open":[],"runs":0,
    "service":"web","stable":"v1","status":"Paused","step":0,"version":"v2","weight":0}
? 0 history web => {"code":"ok","lines":[
    "2026-01-01T00:00:00Z created v1","2026-01-01T00:00:05Z start v2",
    "2026-01-01T00:00:05Z step 0 pause 10s"],"service":"web"}

ops 1 0 service v1 pause:10 setWeight:30 pause:20 => [web Healthy 3 100]
ops 2 0 start v2 => [web Paused 0 0]
? 0 service web => {"code":"ok","hold":"none","moment":1767225600,"open":[],"runs":0,
    "service":"web","stable":"v1","status":"Paused","step":0,"version":"v2","weight":0}
? 40 service web => {"code":"ok","hold":"none","moment":1767225640,"open":[],"runs":0,
    "service":"web","stable":"v2","status":"Healthy","step":3,"version":"v2","weight":100}
ops 3 0 promote => [web Paused 2 30]
ops 4 0 promote => [web Healthy 3 100]

ops 1 0 service v1 pause:10 setWeight:30 pause:20 => [web Healthy 3 100]
ops 2 0 start v2 => [web Paused 0 0]
ops 3 0 promote => [web Paused 2 30]
ops 4 0 promote => [web Healthy 3 100]

ops 1 0 service v1 pause:10 setWeight:30 pause:20 => [web Healthy 3 100]
ops 2 0 start v2 => [web Paused 0 0]
ops 2 50 start v2 => [web Paused 0 0]
ops 5 50 tick => 409 {"code":"ahead","expected":3}
? 5 service web => {"code":"ok","hold":"none","moment":1767225605,"open":[],"runs":0,
    "service":"web","stable":"v1","status":"Paused","step":0,"version":"v2","weight":0}


# A run of two metrics, before its first measurement, between the two and after the last; and one
# in which a dry-run metric failed.
ops 1 0 template t a b => [t 1]
analysis
? 0 service web => {"code":"ok","hold":"none","moment":1767225600,"open":[1],"runs":1,
    "service":"web","stable":"v1","status":"Progressing","step":1,"version":"v2","weight":10}
? 0 run web 1 => {"closed":null,"code":"ok","metrics":[
    {"consecutive":0,"counted":0,"dryRun":false,"due":1767225600,"errors":0,"failed":0,
    "inconclusive":0,"measurements":0,"name":"a","passes":0,"phase":"Pending"},
    {"consecutive":0,"counted":0,"dryRun":false,"due":1767225600,"errors":0,"failed":0,
    "inconclusive":0,"measurements":0,"name":"b","passes":0,"phase":"Pending"}
    ],"run":1,"service":"web","started":1767225600,"step":1,"verdict":"Running"}
? 0 run web 2 => 404 unknown-run
agent 1 0 report 1 a:1:0:1 => [web Progressing 1 10 | 1 Successful | Running]
? 0 run web 1 => {"closed":null,"code":"ok","metrics":[
    {"consecutive":0,"counted":1,"dryRun":false,"due":null,"errors":0,"failed":0,
    "inconclusive":0,"measurements":1,"name":"a","passes":1,"phase":"Successful"},
    {"consecutive":0,"counted":0,"dryRun":false,"due":1767225600,"errors":0,"failed":0,
    "inconclusive":0,"measurements":0,"name":"b","passes":0,"phase":"Pending"}
    ],"run":1,"service":"web","started":1767225600,"step":1,"verdict":"Running"}
agent 2 0 report 1 b:1:0:1 => [web Paused 3 60 | 1 Successful | Successful]
? 0 run web 1 => {"closed":1767225600,"code":"ok","metrics":[
    {"consecutive":0,"counted":1,"dryRun":false,"due":null,"errors":0,"failed":0,
    "inconclusive":0,"measurements":1,"name":"a","passes":1,"phase":"Successful"},
    {"consecutive":0,"counted":1,"dryRun":false,"due":null,"errors":0,"failed":0,
    "inconclusive":0,"measurements":1,"name":"b","passes":1,"phase":"Successful"}
    ],"run":1,"service":"web","started":1767225600,"step":1,"verdict":"Successful"}

ops 1 0 template t d,success=result==0 e dryRun:d => [t 1]
analysis
agent 1 0 report 1 d:1:0:1 e:1:0:1 => [web Paused 3 60 | 1 Failed Successful | Successful]
? 7 run web 1 => {"closed":1767225600,"code":"ok","metrics":[
    {"consecutive":0,"counted":1,"dryRun":true,"due":null,"errors":0,"failed":1,
    "inconclusive":0,"measurements":1,"name":"d","passes":0,"phase":"Failed"},
    {"consecutive":0,"counted":1,"dryRun":false,"due":null,"errors":0,"failed":0,
    "inconclusive":0,"measurements":1,"name":"e","passes":1,"phase":"Successful"}
    ],"run":1,"service":"web","started":1767225600,"step":1,"verdict":"Successful"}


# A background run that an abort closes from outside, and one that the end closes, by time.
ops 1 0 template errs m,interval=60 => [errs 1]
background
agent 1 0 report 1 m:1:0:!down => [web Paused 1 20 | 1 Error | Running]
? 1 run web 1 => {"closed":null,"code":"ok","metrics":[
    {"consecutive":1,"counted":0,"dryRun":false,"due":1767225660,"errors":1,"failed":0,
    "inconclusive":0,"measurements":1,"name":"m","passes":0,"phase":"Running"}
    ],"run":1,"service":"web","started":1767225600,"step":null,"verdict":"Running"}
ops 4 5 abort => [web Degraded 1 0]
? 9 run web 1 => {"closed":1767225605,"code":"ok","metrics":[
    {"consecutive":1,"counted":0,"dryRun":false,"due":null,"errors":1,"failed":0,
    "inconclusive":0,"measurements":1,"name":"m","passes":0,"phase":"Successful"}
    ],"run":1,"service":"web","started":1767225600,"step":null,"verdict":"Successful"}
? 9 history web => {"code":"ok","lines":[
    "2026-01-01T00:00:00Z created v1","2026-01-01T00:00:00Z start v2",
    "2026-01-01T00:00:00Z background run 1","2026-01-01T00:00:00Z step 0 setWeight 20",
    "2026-01-01T00:00:00Z step 1 pause","2026-01-01T00:00:05Z abort",
    "2026-01-01T00:00:05Z run 1 Successful ended"],"service":"web"}
? 9 service web => {"code":"ok","hold":"none","moment":1767225609,"open":[],"runs":1,
    "service":"web","stable":"v1","status":"Degraded","step":1,"version":"v2","weight":0}

ops 1 0 template errs m,interval=60 => [errs 1]
ops 2 0 service v1 setWeight:20 pause:10 background:errs => [web Healthy 2 100]
ops 3 0 start v2 => [web Paused 1 20]
? 9 run web 1 => {"closed":null,"code":"ok","metrics":[
    {"consecutive":0,"counted":0,"dryRun":false,"due":1767225600,"errors":0,"failed":0,
    "inconclusive":0,"measurements":0,"name":"m","passes":0,"phase":"Pending"}
    ],"run":1,"service":"web","started":1767225600,"step":null,"verdict":"Running"}
? 15 run web 1 => {"closed":1767225610,"code":"ok","metrics":[
    {"consecutive":0,"counted":0,"dryRun":false,"due":null,"errors":0,"failed":0,
    "inconclusive":0,"measurements":0,"name":"m","passes":0,"phase":"Successful"}
    ],"run":1,"service":"web","started":1767225600,"step":null,"verdict":"Successful"}
? 15 service web => {"code":"ok","hold":"none","moment":1767225615,"open":[],"runs":1,
    "service":"web","stable":"v2","status":"Healthy","step":2,"version":"v2","weight":100}
? 9 service web => {"code":"ok","hold":"none","moment":1767225609,"open":[1],"runs":1,
    "service":"web","stable":"v1","status":"Paused","step":1,"version":"v2","weight":20}


# A run that opens as a pause ends: it is shown from then on, and no query opens it.
ops 1 0 template t a b => [t 1]
ops 2 0 service v1 pause:10 analysis:t => [web Healthy 2 100]
ops 3 0 start v2 => [web Paused 0 0]
? 9 run web 1 => 404 unknown-run
? 10 run web 1 => {"closed":null,"code":"ok","metrics":[
    {"consecutive":0,"counted":0,"dryRun":false,"due":1767225610,"errors":0,"failed":0,
    "inconclusive":0,"measurements":0,"name":"a","passes":0,"phase":"Pending"},
    {"consecutive":0,"counted":0,"dryRun":false,"due":1767225610,"errors":0,"failed":0,
    "inconclusive":0,"measurements":0,"name":"b","passes":0,"phase":"Pending"}
    ],"run":1,"service":"web","started":1767225610,"step":1,"verdict":"Running"}
? 15 run web 1 => {"closed":null,"code":"ok","metrics":[
    {"consecutive":0,"counted":0,"dryRun":false,"due":1767225610,"errors":0,"failed":0,
    "inconclusive":0,"measurements":0,"name":"a","passes":0,"phase":"Pending"},
    {"consecutive":0,"counted":0,"dryRun":false,"due":1767225610,"errors":0,"failed":0,
    "inconclusive":0,"measurements":0,"name":"b","passes":0,"phase":"Pending"}
    ],"run":1,"service":"web","started":1767225610,"step":1,"verdict":"Running"}
? 15 run web 2 => 404 unknown-run
? 15 service web => {"code":"ok","hold":"none","moment":1767225615,"open":[1],"runs":1,
    "service":"web","stable":"v1","status":"Progressing","step":1,"version":"v2","weight":0}
? 9 run web 1 => 404 unknown-run
agent 1 9 report 1 a:1:9:1 => 422 unknown-run
agent 2 10 report 1 a:1:10:1 => [web Progressing 1 0 | 1 Successful | Running]


# The metrics of a run, in the order in which its templates are named.
ops 1 0 template t a => [t 1]
ops 2 0 template u b => [u 1]
ops 3 0 service v1 analysis:u+t => [web Healthy 1 100]
ops 4 0 start v2 => [web Progressing 0 0]
? 0 run web 1 => {"closed":null,"code":"ok","metrics":[
    {"consecutive":0,"counted":0,"dryRun":false,"due":1767225600,"errors":0,"failed":0,
    "inconclusive":0,"measurements":0,"name":"b","passes":0,"phase":"Pending"},
    {"consecutive":0,"counted":0,"dryRun":false,"due":1767225600,"errors":0,"failed":0,
    "inconclusive":0,"measurements":0,"name":"a","passes":0,"phase":"Pending"}
    ],"run":1,"service":"web","started":1767225600,"step":0,"verdict":"Running"}


# Holds: of a step, of the background, and of both, with the open runs that are left.
ops 1 0 template t m,success=result>10,failure=result<5 => [t 1]
ops 2 0 service v1 setWeight:10 analysis:t pause background:t => [web Healthy 3 100]
ops 3 0 start v2 => [web Progressing 1 10]
? 0 service web => {"code":"ok","hold":"none","moment":1767225600,"open":[1,2],"runs":2,
    "service":"web","stable":"v1","status":"Progressing","step":1,"version":"v2","weight":10}
agent 1 0 report 2 m:1:0:7 => [web Paused 1 10 | 2 Inconclusive | Inconclusive]
? 0 service web => {"code":"ok","hold":"step","moment":1767225600,"open":[1],"runs":2,
    "service":"web","stable":"v1","status":"Paused","step":1,"version":"v2","weight":10}
agent 2 0 report 1 m:1:0:7 => [web Paused 1 10 | 1 Inconclusive | Inconclusive]
? 0 service web => {"code":"ok","hold":"both","moment":1767225600,"open":[],"runs":2,
    "service":"web","stable":"v1","status":"Paused","step":1,"version":"v2","weight":10}
? 0 run web 2 => {"closed":1767225600,"code":"ok","metrics":[
    {"consecutive":0,"counted":1,"dryRun":false,"due":null,"errors":0,"failed":0,
    "inconclusive":1,"measurements":1,"name":"m","passes":0,"phase":"Inconclusive"}
    ],"run":2,"service":"web","started":1767225600,"step":1,"verdict":"Inconclusive"}
ops 4 0 promote => [web Paused 2 10]
? 0 service web => {"code":"ok","hold":"none","moment":1767225600,"open":[],"runs":2,
    "service":"web","stable":"v1","status":"Paused","step":2,"version":"v2","weight":10}

ops 1 0 template errs m,success=result>10,failure=result<5 => [errs 1]
background
agent 1 0 report 1 m:1:0:7 => [web Paused 1 20 | 1 Inconclusive | Inconclusive]
? 0 service web => {"code":"ok","hold":"background","moment":1767225600,"open":[],"runs":1,
    "service":"web","stable":"v1","status":"Paused","step":1,"version":"v2","weight":20}
