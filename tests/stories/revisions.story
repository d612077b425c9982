desk 121

# A run is judged by the revision to which its attempt was bound, and a retry is bound to the
# newest.
ops 1 0 template t m,success=result==0 => {"code":"ok","revision":1,"template":"t"}
analysis
ops 4 0 template t m,success=result==1 => {"code":"ok","revision":2,"template":"t"}
agent 1 0 report 1 m:1:0:1 => [web Degraded 1 0 | 1 Failed | Failed]
ops 5 0 retry => [web Progressing 1 10]
agent 2 0 report 2 m:1:0:1 => [web Paused 3 60 | 2 Successful | Successful]

# A strategy may name one template twice, and no attempt is bound to it.
ops 1 0 template t m => [t 1]
ops 2 0 on api service v1 analysis:t+t => [api Healthy 1 100]
ops 3 0 on api start v2 => 422 {"code":"duplicate-metric"}


# Revisions of a name are numbered from 1, each name by itself, whoever sends them and whether they
# are alike or not. A refused one takes no number; a repeat gets the number that it got.
ops 1 0 template t m => [t 1]
dev 1 0 template t m => [t 2]
ops 2 0 template u m => [u 1]
ops 3 0 template t m m => 422 duplicate-metric
ops 4 0 template t m,success=result> => 422 bad-condition
ops 5 0 template t n => [t 3]
ops 1 0 template t m => [t 1]
ops 1 0 template t n => 409 reused
ops 5 0 template t n => [t 3]
ops 7 0 template t m => 409 {"code":"ahead","expected":6}
ops 6 0 template t m => [t 4]
dev 2 0 template t m,interval=60 => [t 5]
dev 3 0 template t m => [t 6]
dev 4 0 template t a b => [t 7]
dev 5 0 template t m => [t 8]
dev 6 0 template t m => [t 9]
dev 7 0 template t m => [t 10]
dev 8 0 template t m => [t 11]
dev 1 0 template t m => [t 2]
ops 7 0 template u m => [u 2]


# A retry after a better template succeeds where the first attempt failed; each run shows the
# metrics of its own revision, before and after. A template adds no line to a history.
ops 1 0 template t rate,success=result>=99 old => [t 1]
ops 2 1 service v1 setWeight:20 analysis:t pause => [web Healthy 3 100]
ops 3 2 start v2 => [web Progressing 1 20]
agent 1 3 report 1 rate:1:3:97 old:1:3:5 =>
     [web Degraded 1 0 | 1 Failed Successful | Failed]
ops 4 4 template t rate,success=result>=95,count=2,interval=10 => [t 2]
? 5 run web 1 => {"closed":1767225603,"code":"ok","metrics":[
    {"consecutive":0,"counted":1,"dryRun":false,"due":null,"errors":0,"failed":1,
    "inconclusive":0,"measurements":1,"name":"rate","passes":0,"phase":"Failed"},
    {"consecutive":0,"counted":1,"dryRun":false,"due":null,"errors":0,"failed":0,
    "inconclusive":0,"measurements":1,"name":"old","passes":1,"phase":"Successful"}
    ],"run":1,"service":"web","started":1767225602,"step":1,"verdict":"Failed"}
ops 5 6 retry => [web Progressing 1 20]
agent 2 7 report 1 rate:2:7:97 => 422 run-closed
agent 3 8 report 2 old:1:8:5 => 422 {"at":0,"code":"unknown-metric"}
agent 4 9 report 2 rate:1:9:97 => [web Progressing 1 20 | 2 Successful | Running]
? 10 run web 2 => {"closed":null,"code":"ok","metrics":[
    {"consecutive":0,"counted":1,"dryRun":false,"due":1767225619,"errors":0,"failed":0,
    "inconclusive":0,"measurements":1,"name":"rate","passes":1,"phase":"Running"}
    ],"run":2,"service":"web","started":1767225606,"step":1,"verdict":"Running"}
agent 5 19 report 2 rate:2:19:97 => [web Paused 2 20 | 2 Successful | Successful]
? 20 run web 1 => {"closed":1767225603,"code":"ok","metrics":[
    {"consecutive":0,"counted":1,"dryRun":false,"due":null,"errors":0,"failed":1,
    "inconclusive":0,"measurements":1,"name":"rate","passes":0,"phase":"Failed"},
    {"consecutive":0,"counted":1,"dryRun":false,"due":null,"errors":0,"failed":0,
    "inconclusive":0,"measurements":1,"name":"old","passes":1,"phase":"Successful"}
    ],"run":1,"service":"web","started":1767225602,"step":1,"verdict":"Failed"}
? 21 history web => {"code":"ok","lines":[
    "2026-01-01T00:00:01Z created v1","2026-01-01T00:00:02Z start v2",
    "2026-01-01T00:00:02Z step 0 setWeight 20","2026-01-01T00:00:02Z step 1 analysis run 1",
    "2026-01-01T00:00:03Z run 1 Failed","2026-01-01T00:00:03Z abort run 1",
    "2026-01-01T00:00:06Z retry v2","2026-01-01T00:00:06Z step 0 setWeight 20",
    "2026-01-01T00:00:06Z step 1 analysis run 2","2026-01-01T00:00:19Z run 2 Successful",
    "2026-01-01T00:00:19Z step 2 pause"],"service":"web"}


# An open run survives three new revisions of its template: over a book in memory, as each moment is
# later than the one before it.
ops 1 0 template errs m,success=result==0,interval=60 => [errs 1]
ops 2 1 service v1 setWeight:20 pause background:errs => [web Healthy 2 100]
ops 3 2 start v2 => [web Paused 1 20]
agent 1 3 report 1 m:1:3:0 => [web Paused 1 20 | 1 Successful | Running]
ops 4 4 template errs n => [errs 2]
ops 5 5 template errs m,success=result==1,interval=60 => [errs 3]
ops 6 6 template errs m,interval=60 n,interval=60 => [errs 4]
agent 2 63 report 1 n:1:63:0 => 422 {"at":0,"code":"unknown-metric"}
agent 3 64 report 1 m:2:64:0 => [web Paused 1 20 | 1 Successful | Running]
? 65 run web 1 => {"closed":null,"code":"ok","metrics":[
    {"consecutive":0,"counted":2,"dryRun":false,"due":1767225724,"errors":0,"failed":0,
    "inconclusive":0,"measurements":2,"name":"m","passes":2,"phase":"Running"}
    ],"run":1,"service":"web","started":1767225602,"step":null,"verdict":"Running"}
agent 4 124 report 1 m:3:124:1 => [web Degraded 1 0 | 1 Failed | Failed]
ops 7 125 retry => [web Paused 1 20]
agent 5 126 report 2 m:1:126:1 n:1:126:1 => [web Paused 1 20 | 2 Successful Successful | Running]

# The same over a file, which is closed and opened again between each pair of moments.
ops 1 0 template errs m,success=result==0,interval=60 => [errs 1]
ops 2 0 service v1 setWeight:20 pause background:errs => [web Healthy 2 100]
ops 3 1 start v2 => [web Paused 1 20]
agent 1 1 report 1 m:1:1:0 => [web Paused 1 20 | 1 Successful | Running]
ops 4 2 template errs n => [errs 2]
? 2 run web 1 => {"closed":null,"code":"ok","metrics":[
    {"consecutive":0,"counted":1,"dryRun":false,"due":1767225661,"errors":0,"failed":0,
    "inconclusive":0,"measurements":1,"name":"m","passes":1,"phase":"Running"}
    ],"run":1,"service":"web","started":1767225601,"step":null,"verdict":"Running"}
ops 5 3 template errs m,success=result==1,interval=60 => [errs 3]
? 3 run web 1 => {"closed":null,"code":"ok","metrics":[
    {"consecutive":0,"counted":1,"dryRun":false,"due":1767225661,"errors":0,"failed":0,
    "inconclusive":0,"measurements":1,"name":"m","passes":1,"phase":"Running"}
    ],"run":1,"service":"web","started":1767225601,"step":null,"verdict":"Running"}
ops 6 4 template errs m,interval=60 n,interval=60 => [errs 4]
? 4 run web 1 => {"closed":null,"code":"ok","metrics":[
    {"consecutive":0,"counted":1,"dryRun":false,"due":1767225661,"errors":0,"failed":0,
    "inconclusive":0,"measurements":1,"name":"m","passes":1,"phase":"Running"}
    ],"run":1,"service":"web","started":1767225601,"step":null,"verdict":"Running"}
agent 2 61 report 1 n:1:61:0 => 422 {"at":0,"code":"unknown-metric"}
agent 3 61 report 1 m:2:61:0 => [web Paused 1 20 | 1 Successful | Running]
ops 5 62 template errs m,success=result==1,interval=60 => [errs 3]
ops 7 62 template errs m,interval=60 n,interval=60 => [errs 5]
agent 4 121 report 1 m:3:121:1 => [web Degraded 1 0 | 1 Failed | Failed]
? 121 run web 1 => {"closed":1767225721,"code":"ok","metrics":[
    {"consecutive":0,"counted":3,"dryRun":false,"due":null,"errors":0,"failed":1,
    "inconclusive":0,"measurements":3,"name":"m","passes":0,"phase":"Failed"}
    ],"run":1,"service":"web","started":1767225601,"step":null,"verdict":"Failed"}
ops 8 122 retry => [web Paused 1 20]
ops 9 122 template errs only => [errs 6]
agent 5 123 report 2 m:1:123:1 n:1:123:1 => [web Paused 1 20 | 2 Successful Successful | Running]
? 123 run web 2 => {"closed":null,"code":"ok","metrics":[
    {"consecutive":0,"counted":1,"dryRun":false,"due":1767225783,"errors":0,"failed":0,
    "inconclusive":0,"measurements":1,"name":"m","passes":1,"phase":"Running"},
    {"consecutive":0,"counted":1,"dryRun":false,"due":1767225783,"errors":0,"failed":0,
    "inconclusive":0,"measurements":1,"name":"n","passes":1,"phase":"Running"}
    ],"run":2,"service":"web","started":1767225722,"step":null,"verdict":"Running"}


# An attempt is bound once, as it begins: runs that open later, as time passes or by a report, are of
# the same revisions. The next attempt is bound to those that are the newest then.
ops 1 0 template t m => [t 1]
ops 2 0 template bg g,interval=60 => [bg 1]
ops 3 0 service v1 pause:10 analysis:t pause background:bg@2 => [web Healthy 3 100]
ops 4 0 start v2 => [web Paused 0 0]
ops 5 0 template t n => [t 2]
ops 6 0 template bg h,interval=60 => [bg 2]
ops 7 10 tick => [web Progressing 1 0]
agent 1 10 report 1 n:1:10:5 => 422 {"at":0,"code":"unknown-metric"}
ops 8 10 template t m n => [t 3]
agent 2 10 report 1 m:1:10:5 => [web Paused 2 0 | 1 Successful | Successful]
agent 3 10 report 2 h:1:10:5 => 422 {"at":0,"code":"unknown-metric"}
agent 4 10 report 2 g:1:10:5 => [web Paused 2 0 | 2 Successful | Running]
ops 9 10 promote => [web Healthy 3 100]
ops 10 10 start v3 => [web Paused 0 0]
agent 5 20 report 3 m:1:20:5 => [web Progressing 1 0 | 3 Successful | Running]
agent 6 20 report 3 n:1:20:5 => [web Paused 2 0 | 3 Successful | Successful]
agent 7 20 report 4 h:1:20:5 => [web Paused 2 0 | 4 Successful | Running]

# A service is not bound before its first attempt, and two are bound each by itself.
ops 1 0 template t m,success=result==0 => [t 1]
ops 2 0 service v1 analysis:t => [web Healthy 1 100]
ops 3 0 on api service v1 analysis:t => [api Healthy 1 100]
ops 4 0 start v2 => [web Progressing 0 0]
ops 5 0 template t m,success=result==1 => [t 2]
ops 6 0 on api start v2 => [api Progressing 0 0]
agent 1 0 report 1 m:1:0:0 => [web Healthy 1 100 | 1 Successful | Successful]
agent 2 0 on api report 1 m:1:0:0 => [api Degraded 0 0 | 1 Failed | Failed]


# One command may end an attempt, as time passes, and begin another: the runs before it are of the
# revisions before, the run that it opens is of the newest.
ops 1 0 template t m => [t 1]
ops 2 0 service v1 analysis:t pause:10 setWeight:50 background:t@2 => [web Healthy 3 100]
ops 3 0 start v2 => [web Progressing 0 0]
agent 1 0 report 1 m:1:0:1 => [web Paused 1 0 | 1 Successful | Successful]
ops 4 0 template t n => [t 2]
ops 5 60 start v3 => [web Progressing 0 0]
? 60 run web 2 => {"closed":1767225610,"code":"ok","metrics":[
    {"consecutive":0,"counted":0,"dryRun":false,"due":null,"errors":0,"failed":0,
    "inconclusive":0,"measurements":0,"name":"m","passes":0,"phase":"Successful"}
    ],"run":2,"service":"web","started":1767225610,"step":null,"verdict":"Successful"}
? 60 run web 3 => {"closed":null,"code":"ok","metrics":[
    {"consecutive":0,"counted":0,"dryRun":false,"due":1767225660,"errors":0,"failed":0,
    "inconclusive":0,"measurements":0,"name":"n","passes":0,"phase":"Pending"}
    ],"run":3,"service":"web","started":1767225660,"step":0,"verdict":"Running"}
? 60 history web => {"code":"ok","lines":[
    "2026-01-01T00:00:00Z created v1","2026-01-01T00:00:00Z start v2",
    "2026-01-01T00:00:00Z step 0 analysis run 1","2026-01-01T00:00:00Z run 1 Successful",
    "2026-01-01T00:00:00Z step 1 pause 10s","2026-01-01T00:00:10Z background run 2",
    "2026-01-01T00:00:10Z step 2 setWeight 50","2026-01-01T00:00:10Z run 2 Successful ended",
    "2026-01-01T00:00:10Z done v2","2026-01-01T00:01:00Z start v3",
    "2026-01-01T00:01:00Z step 0 analysis run 3"],"service":"web"}


# An analysis of two templates is bound to a revision of each; marks of dry runs are those of the
# revision, too.
ops 1 0 template t m,success=result==0 => [t 1]
ops 2 0 template u n,success=result==0 => [u 1]
ops 3 0 template u n,success=result==0 dryRun:n => [u 2]
ops 4 0 service v1 analysis:u+t => [web Healthy 1 100]
ops 5 0 start v2 => [web Progressing 0 0]
ops 6 0 template u n,success=result==0 => [u 3]
agent 1 0 report 1 n:1:0:1 m:1:0:0 => [web Healthy 1 100 | 1 Failed Successful | Successful]
ops 7 0 start v3 => [web Progressing 0 0]
ops 8 0 template t m => [t 2]
agent 2 0 report 2 n:1:0:1 m:1:0:0 => [web Degraded 0 0 | 2 Failed Successful | Failed]
