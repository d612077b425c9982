desk 557

# A doubled promotion acts once, a number ahead and another command under an old number change
# nothing, and each kept reply comes again.
ops 1 0 service v1 setWeight:20 pause setWeight:50 pause => [web Healthy 4 100]
ops 2 1 start v2 => [web Paused 1 20]
ops 3 2 promote => [web Paused 3 50]
ops 3 3 promote => [web Paused 3 50]
ops 5 4 promote => 409 {"code":"ahead","expected":4}
ops 4 5 tick => [web Paused 3 50]
ops 5 6 promote => [web Healthy 4 100]
ops 3 7 abort => 409 reused
ops 2 8 start v2 => [web Paused 1 20]
ops 6 9 promote => 422 not-in-progress
ops 6 10 promote => 422 not-in-progress


# Background runs: five errors abort, and those between which a result came do not; a run is
# reported to in turn, in time, and once; an inconclusive run holds, and its promotion enters the
# step anew.
ops 1 0 template errs m,interval=60 => [errs 1]
background
agent 1 0 report 1 m:1:0:!down => [web Paused 1 20 | 1 Error | Running]
agent 2 60 report 1 m:2:60:!down => [web Paused 1 20 | 1 Error | Running]
agent 3 120 report 1 m:3:120:!down => [web Paused 1 20 | 1 Error | Running]
agent 4 180 report 1 m:4:180:!down => [web Paused 1 20 | 1 Error | Running]
agent 5 240 report 1 m:5:240:!down => [web Degraded 1 0 | 1 Error | Error]

ops 1 0 template errs m,interval=60 => [errs 1]
background
agent 1 0 report 1 m:1:0:5 => [web Paused 1 20 | 1 Successful | Running]
agent 2 0 report 1 m:3:0:5 => 422 {"at":0,"code":"out-of-turn","expected":2}
agent 3 0 report 1 m:1:0:!down => 422 {"at":0,"code":"recorded"}
agent 4 59 report 1 m:2:59:5 => 422 {"at":0,"code":"too-early","due":1767225660}
agent 5 60 report 1 m:2:61:5 => 422 {"at":0,"code":"future"}
agent 6 60 report 1 m:2:60:5 => [web Paused 1 20 | 1 Successful | Running]
agent 2 60 report 1 m:3:0:5 => 422 {"at":0,"code":"out-of-turn","expected":2}

ops 1 0 template errs m,success=result>10,failure=result<5 => [errs 1]
background
agent 1 0 report 1 m:1:0:7 => [web Paused 1 20 | 1 Inconclusive | Inconclusive]
ops 4 0 promote => [web Paused 1 20]
ops 5 0 promote => [web Healthy 2 100]


# Eight errors, and a result after four of them.
ops 1 0 template errs m,interval=60 => [errs 1]
background
agent 1 0 report 1 m:1:0:!down => [web Paused 1 20 | 1 Error | Running]
agent 2 60 report 1 m:2:60:!down => [web Paused 1 20 | 1 Error | Running]
agent 3 120 report 1 m:3:120:!down => [web Paused 1 20 | 1 Error | Running]
agent 4 180 report 1 m:4:180:!down => [web Paused 1 20 | 1 Error | Running]
agent 5 240 report 1 m:5:240:1 => [web Paused 1 20 | 1 Successful | Running]
agent 6 300 report 1 m:6:300:!down => [web Paused 1 20 | 1 Error | Running]
agent 7 360 report 1 m:7:360:!down => [web Paused 1 20 | 1 Error | Running]
agent 8 420 report 1 m:8:420:!down => [web Paused 1 20 | 1 Error | Running]
agent 9 480 report 1 m:9:480:!down => [web Paused 1 20 | 1 Error | Running]
? 480 run web 1 => {"closed":null,"code":"ok","metrics":[
    {"consecutive":4,"counted":1,"dryRun":false,"due":1767226140,"errors":8,"failed":0,
    "inconclusive":0,"measurements":9,"name":"m","passes":0,"phase":"Running"}
    ],"run":1,"service":"web","started":1767225600,"step":null,"verdict":"Running"}


# Two successes in a row complete a metric that asks for them, and an error between begins anew.
ops 1 0 template errs m,success=result==0,interval=60,failureLimit=1,passAfter=2 => [errs 1]
background
agent 1 0 report 1 m:1:0:0 => [web Paused 1 20 | 1 Successful | Running]
agent 2 60 report 1 m:2:60:1 => [web Paused 1 20 | 1 Failed | Running]
agent 3 120 report 1 m:3:120:0 => [web Paused 1 20 | 1 Successful | Running]
agent 4 180 report 1 m:4:180:0 => [web Paused 1 20 | 1 Successful | Successful]
agent 5 240 report 1 m:5:240:0 => 422 run-closed

ops 1 0 template errs m,success=result==0,interval=60,failureLimit=1,passAfter=2 => [errs 1]
background
agent 1 0 report 1 m:1:0:0 => [web Paused 1 20 | 1 Successful | Running]
agent 2 60 report 1 m:2:60:!down => [web Paused 1 20 | 1 Error | Running]
agent 3 120 report 1 m:3:120:0 => [web Paused 1 20 | 1 Successful | Running]
? 120 run web 1 => {"closed":null,"code":"ok","metrics":[
    {"consecutive":0,"counted":2,"dryRun":false,"due":1767225780,"errors":1,"failed":0,
    "inconclusive":0,"measurements":3,"name":"m","passes":1,"phase":"Running"}
    ],"run":1,"service":"web","started":1767225600,"step":null,"verdict":"Running"}

# The same in one stream over a book in memory, and over a file that is opened anew for each report
# with its query.
ops 1 0 template errs m,success=result==0,interval=60,failureLimit=1,passAfter=2 => [errs 1]
ops 2 1 service v1 setWeight:20 pause background:errs => [web Healthy 2 100]
ops 3 2 start v2 => [web Paused 1 20]
agent 1 60 report 1 m:1:60:0 => [web Paused 1 20 | 1 Successful | Running]
agent 2 120 report 1 m:2:120:1 => [web Paused 1 20 | 1 Failed | Running]
agent 3 180 report 1 m:3:180:0 => [web Paused 1 20 | 1 Successful | Running]
agent 4 240 report 1 m:4:240:0 => [web Paused 1 20 | 1 Successful | Successful]
agent 5 300 report 1 m:5:300:0 => 422 run-closed

ops 1 0 template errs m,success=result==0,interval=60,failureLimit=1,passAfter=2 => [errs 1]
background
agent 1 0 report 1 m:1:0:0 => [web Paused 1 20 | 1 Successful | Running]
agent 2 60 report 1 m:2:60:1 => [web Paused 1 20 | 1 Failed | Running]
? 60 run web 1 => {"closed":null,"code":"ok","metrics":[
    {"consecutive":0,"counted":2,"dryRun":false,"due":1767225720,"errors":0,"failed":1,
    "inconclusive":0,"measurements":2,"name":"m","passes":0,"phase":"Running"}
    ],"run":1,"service":"web","started":1767225600,"step":null,"verdict":"Running"}
agent 3 120 report 1 m:3:120:0 => [web Paused 1 20 | 1 Successful | Running]
? 120 run web 1 => {"closed":null,"code":"ok","metrics":[
    {"consecutive":0,"counted":3,"dryRun":false,"due":1767225780,"errors":0,"failed":1,
    "inconclusive":0,"measurements":3,"name":"m","passes":1,"phase":"Running"}
    ],"run":1,"service":"web","started":1767225600,"step":null,"verdict":"Running"}
agent 4 180 report 1 m:4:180:0 => [web Paused 1 20 | 1 Successful | Successful]
? 180 run web 1 => {"closed":1767225780,"code":"ok","metrics":[
    {"consecutive":0,"counted":4,"dryRun":false,"due":null,"errors":0,"failed":1,
    "inconclusive":0,"measurements":4,"name":"m","passes":2,"phase":"Successful"}
    ],"run":1,"service":"web","started":1767225600,"step":null,"verdict":"Successful"}
agent 5 240 report 1 m:5:240:0 => 422 run-closed

# The limits come first: with no failure allowed the first one completes the metric. An Inconclusive
# one begins the successes anew, too. A step's run ends early, and so may one without a count.
ops 1 0 template errs m,success=result==0,interval=60,passAfter=2 => [errs 1]
background
agent 1 0 report 1 m:1:0:1 => [web Degraded 1 0 | 1 Failed | Failed]

ops 1 0 template errs m,success=result>10,failure=result<5,interval=60,
    inconclusiveLimit=1,passAfter=2 => [errs 1]
background
agent 1 0 report 1 m:1:0:11 => [web Paused 1 20 | 1 Successful | Running]
agent 2 60 report 1 m:2:60:7 => [web Paused 1 20 | 1 Inconclusive | Running]
agent 3 120 report 1 m:3:120:11 => [web Paused 1 20 | 1 Successful | Running]
agent 4 180 report 1 m:4:180:11 => [web Paused 1 20 | 1 Successful | Successful]

ops 1 0 template t m,interval=60,count=9,passAfter=2 n,interval=60,passAfter=1 => [t 1]
analysis
agent 1 0 report 1 m:1:0:1 => [web Progressing 1 10 | 1 Successful | Running]
agent 2 60 report 1 m:2:60:1 n:1:60:1 => [web Paused 3 60 | 1 Successful Successful | Successful]

ops 1 0 template t m,interval=60 => [t 1]
ops 2 0 service v1 setWeight:10 analysis:t => [web Healthy 2 100]
ops 3 0 start v2 => 422 endless-metric


# Runs of a step.
ops 1 0 template t m,success=result>10,failure=result<5 => [t 1]
analysis
agent 1 0 report 1 m:1:0:7 => [web Paused 1 10 | 1 Inconclusive | Inconclusive]
ops 4 0 promote => [web Paused 3 60]

ops 1 0 template t m,success=result>1,failure=result<9 => [t 1]
analysis
agent 1 0 report 1 m:1:0:5 => [web Degraded 1 0 | 1 Failed | Failed]
ops 4 0 retry => [web Progressing 1 10]
agent 2 0 report 2 m:1:0:5 => [web Degraded 1 0 | 2 Failed | Failed]

ops 1 0 template t m,success=result==0,count=3,interval=10,failureLimit=1 => [t 1]
analysis
agent 1 0 report 1 m:1:0:0 => [web Progressing 1 10 | 1 Successful | Running]
agent 2 10 report 1 m:2:10:1 => [web Progressing 1 10 | 1 Failed | Running]
agent 3 20 report 1 m:3:20:0 => [web Paused 3 60 | 1 Successful | Successful]

ops 1 0 template t m,success=result==0,count=3,interval=10,failureLimit=1 => [t 1]
analysis
agent 1 0 report 1 m:1:0:1 => [web Progressing 1 10 | 1 Failed | Running]
agent 2 10 report 1 m:2:10:1 => [web Degraded 1 0 | 1 Failed | Failed]

ops 1 0 template t a,success=result>10,failure=result<5 b,success=result==0 => [t 1]
analysis
agent 1 0 report 1 a:1:0:7 c:1:0:1 => 422 {"at":1,"code":"unknown-metric"}
agent 2 0 report 1 a:1:0:7 b:1:0:1 => [web Degraded 1 0 | 1 Inconclusive Failed | Failed]

ops 1 0 template t d,success=result==0 e dryRun:d => [t 1]
analysis
agent 1 0 report 1 d:1:0:1 e:1:0:1 => [web Paused 3 60 | 1 Failed Successful | Successful]

ops 1 0 template t d,success=result==0 dryRun:d => [t 1]
analysis
agent 1 0 report 1 d:1:0:1 => [web Paused 3 60 | 1 Failed | Successful]

ops 1 0 template t m,success=result>10,failure=result<5 => [t 1]
analysis
ops 4 0 promote => 422 not-paused
ops 5 0 promoteFull => [web Healthy 4 100]
agent 1 0 report 1 m:1:0:7 => 422 run-closed
agent 2 0 report 2 m:1:0:7 => 422 unknown-run


# Inconclusive measurements have a limit of their own, and are counted.
ops 1 0 template t m,success=result>10,failure=result<5,count=3,interval=10,
    inconclusiveLimit=1 => [t 1]
analysis
agent 1 0 report 1 m:1:0:7 => [web Progressing 1 10 | 1 Inconclusive | Running]
agent 2 10 report 1 m:2:10:7 => [web Paused 1 10 | 1 Inconclusive | Inconclusive]

ops 1 0 template t m,success=result>10,failure=result<5,count=3,interval=10,failureLimit=1 => [t 1]
analysis
agent 1 0 report 1 m:1:0:7 => [web Paused 1 10 | 1 Inconclusive | Inconclusive]

ops 1 0 template t m,success=result>10,failure=result<5,count=2,interval=10,
    inconclusiveLimit=2 => [t 1]
analysis
agent 1 0 report 1 m:1:0:7 => [web Progressing 1 10 | 1 Inconclusive | Running]
agent 2 10 report 1 m:2:10:11 => [web Paused 3 60 | 1 Successful | Successful]


# Failed and inconclusive measurements are counted over the whole run, in a row or not, each kind
# against its own limit.
ops 1 0 template t m,success=result==0,count=4,interval=10,failureLimit=1 => [t 1]
analysis
agent 1 0 report 1 m:1:0:1 => [web Progressing 1 10 | 1 Failed | Running]
agent 2 10 report 1 m:2:10:0 => [web Progressing 1 10 | 1 Successful | Running]
agent 3 20 report 1 m:3:20:1 => [web Degraded 1 0 | 1 Failed | Failed]

ops 1 0 template t m,success=result>10,failure=result<5,count=4,interval=10,
    inconclusiveLimit=1 => [t 1]
analysis
agent 1 0 report 1 m:1:0:7 => [web Progressing 1 10 | 1 Inconclusive | Running]
agent 2 10 report 1 m:2:10:11 => [web Progressing 1 10 | 1 Successful | Running]
agent 3 20 report 1 m:3:20:7 => [web Paused 1 10 | 1 Inconclusive | Inconclusive]

ops 1 0 template t m,success=result>10,failure=result<5,count=3,interval=10,
    failureLimit=1,inconclusiveLimit=1 => [t 1]
analysis
agent 1 0 report 1 m:1:0:7 => [web Progressing 1 10 | 1 Inconclusive | Running]
agent 2 10 report 1 m:2:10:3 => [web Progressing 1 10 | 1 Failed | Running]
agent 3 20 report 1 m:3:20:11 => [web Paused 3 60 | 1 Successful | Successful]


# One bad metric closes a run, whatever the others wait for.
ops 1 0 template t a,success=result>10,failure=result<5 b => [t 1]
analysis
agent 1 5 report 1 a:1:5:7 => [web Paused 1 10 | 1 Inconclusive | Inconclusive]
? 5 run web 1 => {"closed":1767225605,"code":"ok","metrics":[
    {"consecutive":0,"counted":1,"dryRun":false,"due":null,"errors":0,"failed":0,
    "inconclusive":1,"measurements":1,"name":"a","passes":0,"phase":"Inconclusive"},
    {"consecutive":0,"counted":0,"dryRun":false,"due":null,"errors":0,"failed":0,
    "inconclusive":0,"measurements":0,"name":"b","passes":0,"phase":"Successful"}
    ],"run":1,"service":"web","started":1767225600,"step":1,"verdict":"Inconclusive"}

ops 1 0 template t a,consecutiveErrorLimit=0 b => [t 1]
analysis
agent 1 0 report 1 a:1:0:!down => [web Degraded 1 0 | 1 Error | Error]
agent 2 0 report 1 b:1:0:5 => 422 run-closed


# An interval of no seconds is one.
ops 1 0 template t m,interval=0,count=2 => [t 1]
analysis
agent 1 0 report 1 m:1:0:5 => [web Progressing 1 10 | 1 Successful | Running]
agent 2 0 report 1 m:2:0:5 => [web Paused 3 60 | 1 Successful | Successful]

ops 1 0 template t m,interval=0 => [t 1]
ops 2 0 service v1 analysis:t => [web Healthy 1 100]
ops 3 0 start v2 => 422 endless-metric
ops 4 0 on api service v1 pause background:t => [api Healthy 1 100]
ops 5 0 on api start v2 => [api Paused 0 0]


# A count of 0 is as if none were given.
ops 1 0 template t m,count=0 => [t 1]
analysis
agent 1 0 report 1 m:1:0:5 => [web Paused 3 60 | 1 Successful | Successful]

ops 1 0 template t m,count=0,interval=60 => [t 1]
ops 2 0 service v1 analysis:t => [web Healthy 1 100]
ops 3 0 start v2 => 422 endless-metric


# `.*` marks the metrics of its own template alone.
ops 1 0 template t m,success=result==0 => [t 1]
ops 2 0 template u n dryRun:.* => [u 1]
ops 3 0 service v1 analysis:t+u => [web Healthy 1 100]
ops 4 0 start v2 => [web Progressing 0 0]
agent 1 0 report 1 m:1:0:1 => [web Degraded 0 0 | 1 Failed | Failed]


# A name marks the metric of exactly that name; each name counts, and `.*` wherever it stands.
ops 1 0 template t m,success=result==0 mm,success=result==0 dryRun:m => [t 1]
analysis
agent 1 0 report 1 m:1:0:1 mm:1:0:1 => [web Degraded 1 0 | 1 Failed Failed | Failed]

ops 1 0 template t a,success=result==0 b,success=result==0 c dryRun:a dryRun:b => [t 1]
analysis
agent 1 0 report 1 a:1:0:1 b:1:0:1 c:1:0:1 =>
     [web Paused 3 60 | 1 Failed Failed Successful | Successful]

ops 1 0 template t a,success=result==0 b,success=result==0 dryRun:a dryRun:.* dryRun:a => [t 1]
analysis
agent 1 0 report 1 a:1:0:1 b:1:0:1 => [web Paused 3 60 | 1 Failed Failed | Successful]

ops 1 0 template t m dryRun:m.* => 422 bad-dry-run
ops 2 0 template t m dryRun:M => 422 bad-dry-run
ops 3 0 template t m M => [t 1]


# A dry-run metric that is Inconclusive or Error closes no run, and is completed: it takes no more
# measurements. The verdict of a run that is ended from outside passes over it, too.
ops 1 0 template t d,success=result>10,failure=result<5 e,count=2,interval=10 dryRun:d => [t 1]
analysis
agent 1 0 report 1 d:1:0:7 e:1:0:1 => [web Progressing 1 10 | 1 Inconclusive Successful | Running]
agent 2 10 report 1 d:2:10:7 => 422 {"at":0,"code":"metric-closed"}
agent 3 10 report 1 e:2:10:1 => [web Paused 3 60 | 1 Successful | Successful]

ops 1 0 template t d,consecutiveErrorLimit=0 e,count=2,interval=10 dryRun:d => [t 1]
analysis
agent 1 0 report 1 d:1:0:!down e:1:0:1 => [web Progressing 1 10 | 1 Error Successful | Running]
agent 2 10 report 1 d:2:10:5 => 422 {"at":0,"code":"metric-closed"}
agent 3 10 report 1 e:2:10:1 => [web Paused 3 60 | 1 Successful | Successful]

ops 1 0 template t d,success=result==0 e,count=2,interval=10 dryRun:d => [t 1]
analysis
agent 1 0 report 1 d:1:0:1 e:1:0:1 => [web Progressing 1 10 | 1 Failed Successful | Running]
ops 4 5 promoteFull => [web Healthy 4 100]
? 5 run web 1 => {"closed":1767225605,"code":"ok","metrics":[
    {"consecutive":0,"counted":1,"dryRun":true,"due":null,"errors":0,"failed":1,
    "inconclusive":0,"measurements":1,"name":"d","passes":0,"phase":"Failed"},
    {"consecutive":0,"counted":1,"dryRun":false,"due":null,"errors":0,"failed":0,
    "inconclusive":0,"measurements":1,"name":"e","passes":1,"phase":"Successful"}
    ],"run":1,"service":"web","started":1767225600,"step":1,"verdict":"Successful"}


# Releases without a run: pauses that end by themselves, aborts, refusals, and moments that fall.
ops 1 0 service v1 pause:300 pause => [web Healthy 2 100]
ops 2 0 start v2 => [web Paused 0 0]
ops 3 299 tick => [web Paused 0 0]
ops 4 300 tick => [web Paused 1 0]

ops 1 0 service v1 pause:300 pause => [web Healthy 2 100]
ops 2 0 start v2 => [web Paused 0 0]
ops 3 301 tick => [web Paused 1 0]

ops 1 0 service v1 setWeight:20 pause setWeight:50 pause => [web Healthy 4 100]
ops 2 1 start v2 => [web Paused 1 20]
ops 3 2 start v3 => 422 in-progress
ops 4 2 abort => [web Degraded 1 0]
ops 5 2 abort => 422 not-in-progress
ops 6 2 retry => [web Paused 1 20]
ops 7 2 retry => 422 not-aborted
ops 8 2 abort => [web Degraded 1 0]
ops 9 2 start v1 => [web Healthy 4 100]
ops 10 2 start v1 => 422 already-stable

ops 1 0 service v1 => [web Healthy 0 100]
ops 2 1 start v2 => [web Healthy 0 100]

ops 1 0 promote => 422 unknown-service
ops 2 1 service v1 setWeight:100 setWeight:101 => 422 bad-strategy
ops 3 2 service v1 65*pause => 422 bad-strategy
ops 4 9 service v1 64*setWeight:7 => [web Healthy 64 100]
ops 5 4 service v1 65*pause => 422 service-exists
ops 6 0 start v2 => [web Healthy 64 100]
ops 7 1 start v2 => 422 already-stable


# The weight is the last one that a step has set, and not the greatest.
ops 1 0 service v1 setWeight:50 pause setWeight:20 pause setWeight:0 pause => [web Healthy 6 100]
ops 2 0 start v2 => [web Paused 1 50]
ops 3 0 promote => [web Paused 3 20]
ops 4 0 promote => [web Paused 5 0]


# Why templates and services are refused, in order; and measurements that no run takes.
ops 1 0 template t m,success=result> => 422 bad-condition
ops 2 0 template t m n,success=result>1,failure=result> => 422 bad-condition
ops 3 0 template t m,count=2 => 422 interval-needed
ops 4 0 template t m m => 422 duplicate-metric
ops 5 0 template t m dryRun:n => 422 bad-dry-run
ops 6 0 template t m,interval=60 => [t 1]
ops 7 0 template t m => [t 2]
ops 8 0 service v1 analysis:u => 422 unknown-template
ops 9 0 service v1 pause background:u => 422 unknown-template
ops 10 0 service v1 pause background:t => [web Healthy 1 100]

ops 1 0 template t a b,count=2,interval=10 => [t 1]
analysis
agent 1 0 report 1 a:1:0:5 => [web Progressing 1 10 | 1 Successful | Running]
agent 2 0 report 1 b:1:0:5 b:2:0:5 => 422 {"at":1,"code":"repeated-metric"}
agent 3 10 report 1 a:2:10:5 => 422 {"at":0,"code":"metric-closed"}
agent 4 10 report 1 b:1:0:5 => [web Progressing 1 10 | 1 Successful | Running]


# The place of a bad entry, whatever it is refused for; none of its report is recorded.
ops 1 0 template t a,interval=10,count=3 b,interval=10,count=3 c => [t 1]
analysis
agent 1 0 report 1 a:1:0:1 b:1:0:1 c:1:0:1 =>
     [web Progressing 1 10 | 1 Successful Successful Successful | Running]
agent 2 10 report 1 a:2:10:1 c:2:10:1 => 422 {"at":1,"code":"metric-closed"}
agent 3 10 report 1 a:2:10:1 b:1:10:1 => 422 {"at":1,"code":"recorded"}
agent 4 10 report 1 a:2:10:1 b:3:10:1 => 422 {"at":1,"code":"out-of-turn","expected":2}
agent 5 10 report 1 a:2:10:1 b:2:11:1 => 422 {"at":1,"code":"future"}
agent 6 10 report 1 a:2:10:1 b:2:9:1 => 422 {"at":1,"code":"too-early","due":1767225610}
agent 7 10 report 1 a:2:10:1 b:2:10:1 => [web Progressing 1 10 | 1 Successful Successful | Running]


# Phases stand in the order of the report's entries, and not in that of the run's metrics.
ops 1 0 template t a,success=result>10,failure=result<5 b,success=result==0 => [t 1]
analysis
agent 1 0 report 1 b:1:0:1 a:1:0:7 => [web Degraded 1 0 | 1 Failed Inconclusive | Failed]


# A run of an attempt before this one is closed, and not unknown.
ops 1 0 template t m => [t 1]
analysis
ops 4 0 abort => [web Degraded 1 0]
ops 5 0 retry => [web Progressing 1 10]
agent 1 0 report 1 m:1:0:5 => 422 run-closed
agent 2 0 report 2 m:1:0:5 => [web Paused 3 60 | 2 Successful | Successful]


# Conditions on lists, errors that abort from a step, a background run that ends well, and a pause
# of no seconds.
ops 1 0 template t m,success=result[2]>0 => [t 1]
analysis
agent 1 0 report 1 m:1:0:[1;2] => [web Progressing 1 10 | 1 Error | Running]

ops 1 0 template t m,success=result[0]>0||result[9]>0 => [t 1]
analysis
agent 1 0 report 1 m:1:0:[1] => [web Paused 3 60 | 1 Successful | Successful]

ops 1 0 template t m,success=result[9]>0||result[0]>0 => [t 1]
analysis
agent 1 0 report 1 m:1:0:[1] => [web Progressing 1 10 | 1 Error | Running]

ops 1 0 template t m,count=9,interval=10 => [t 1]
analysis
agent 1 0 report 1 m:1:0:!down => [web Progressing 1 10 | 1 Error | Running]
agent 2 10 report 1 m:2:10:!down => [web Progressing 1 10 | 1 Error | Running]
agent 3 20 report 1 m:3:20:!down => [web Progressing 1 10 | 1 Error | Running]
agent 4 30 report 1 m:4:30:!down => [web Progressing 1 10 | 1 Error | Running]
agent 5 40 report 1 m:5:40:!down => [web Degraded 1 0 | 1 Error | Error]

ops 1 0 template errs m => [errs 1]
background
agent 1 0 report 1 m:1:0:5 => [web Paused 1 20 | 1 Successful | Successful]
agent 2 10 report 1 m:2:10:5 => 422 run-closed
ops 4 20 promote => [web Healthy 2 100]

ops 1 0 service v1 pause:0 pause => [web Healthy 2 100]
ops 2 0 start v2 => [web Paused 1 0]


# Moments that fall.
ops 1 9 service v1 pause => [web Healthy 1 100]
ops 2 0 start v2 => [web Paused 0 0]
ops 3 1 promote => [web Healthy 1 100]
? 0 service web => {"code":"ok","hold":"none","moment":1767225609,"open":[],"runs":0,
    "service":"web","stable":"v2","status":"Healthy","step":1,"version":"v2","weight":100}
? 0 history web => {"code":"ok","lines":[
    "2026-01-01T00:00:09Z created v1","2026-01-01T00:00:09Z start v2",
    "2026-01-01T00:00:09Z step 0 pause","2026-01-01T00:00:09Z promote",
    "2026-01-01T00:00:09Z done v2"],"service":"web"}


# A service that is done or aborted has a last moment, too.
ops 1 0 service v1 pause => [web Healthy 1 100]
ops 2 100 tick => [web Healthy 1 100]
ops 3 50 start v2 => [web Paused 0 0]
ops 4 50 abort => [web Degraded 0 0]
ops 5 200 tick => [web Degraded 0 0]
ops 6 150 retry => [web Paused 0 0]
? 0 history web => {"code":"ok","lines":[
    "2026-01-01T00:00:00Z created v1","2026-01-01T00:01:40Z start v2",
    "2026-01-01T00:01:40Z step 0 pause","2026-01-01T00:01:40Z abort",
    "2026-01-01T00:03:20Z retry v2","2026-01-01T00:03:20Z step 0 pause"],"service":"web"}


# A service is refused for a template that is not there, and then for what is wrong with its steps.
# What the metrics of its templates are is looked at when an attempt begins.
ops 1 0 template t m => [t 1]
ops 2 0 template endless m,interval=60 => [endless 1]
ops 3 0 service v1 analysis:nope => 422 unknown-template
ops 4 0 service v1 analysis:nope analysis:t+t => 422 unknown-template
ops 5 0 service v1 analysis:endless analysis:nope => 422 unknown-template
ops 6 0 service v1 setWeight:101 analysis:nope => 422 unknown-template
ops 7 0 service v1 analysis:t+t setWeight:101 => 422 bad-strategy
ops 8 0 service v1 analysis:endless setWeight:101 => 422 bad-strategy
ops 9 0 service v1 analysis:t+t+t+t+t+t+t+t+t => 422 bad-strategy
ops 10 0 service v1 pause background:t+t+t+t+t+t+t+t+t => 422 bad-strategy
ops 11 0 service v1 analysis:t+t+t+t+t+t+t+t background:endless+t => [web Healthy 1 100]
ops 12 0 service v1 analysis:nope => 422 service-exists


# A start is refused for the first cause that one of the analyses has: a metric twice, then a metric
# without end in a step, in a dry run too, then more than 32 metrics. A metric of the background may
# have no end.
ops 1 0 template t m => [t 1]
ops 2 0 template dry m,interval=60 dryRun:m => [dry 1]
ops 3 0 template w w1 w2 w3 w4 w5 w6 w7 w8 w9 w10 w11 w12 w13 w14 w15 w16 w17 => [w 1]
ops 4 0 template x x1 x2 x3 x4 x5 x6 x7 x8 x9 x10 x11 x12 x13 x14 x15 x16 => [x 1]
ops 5 0 template z z,interval=60 => [z 1]
ops 6 0 on a service v1 analysis:t+t => [a Healthy 1 100]
ops 7 0 on a start v2 => 422 duplicate-metric
ops 8 0 on b service v1 analysis:dry background:t+dry => [b Healthy 1 100]
ops 9 0 on b start v2 => 422 duplicate-metric
ops 10 0 on c service v1 pause analysis:dry background:w+x => [c Healthy 2 100]
ops 11 0 on c start v2 => 422 endless-metric
ops 12 0 on d service v1 pause analysis:w+x => [d Healthy 2 100]
ops 13 0 on d start v2 => 422 bad-strategy
ops 14 0 on e service v1 pause background:w+x => [e Healthy 1 100]
ops 15 0 on e start v2 => 422 bad-strategy
ops 16 0 on f service v1 pause analysis:t background:dry => [f Healthy 2 100]
ops 17 0 on f start v2 => [f Paused 0 0]
ops 18 0 on g service v1 analysis:w+z => [g Healthy 1 100]
ops 19 0 on g start v2 => 422 endless-metric
ops 20 0 template x x1 x2 x3 x4 x5 x6 x7 x8 x9 x10 x11 x12 x13 x14 x15 => [x 2]
ops 21 0 on d start v2 => [d Paused 0 0]
ops 22 0 on e start v2 => [e Paused 0 0]
ops 23 0 on nobody start v2 => 422 unknown-service


# All of these go before what the standing of the release refuses, and a refusal changes nothing: a
# release goes on as it was bound. A start that ends an aborted release is bound, too.
ops 1 0 template t m => [t 1]
ops 2 0 template u n => [u 1]
ops 3 0 service v1 pause analysis:t+u => [web Healthy 2 100]
ops 4 0 start v2 => [web Paused 0 0]
ops 5 0 start v3 => 422 in-progress
ops 6 0 retry => 422 not-aborted
ops 7 0 template u m => [u 2]
ops 8 0 start v3 => 422 duplicate-metric
ops 9 0 retry => 422 duplicate-metric
ops 10 0 template u n,interval=60 => [u 3]
ops 11 0 start v3 => 422 endless-metric
ops 12 0 retry => 422 endless-metric
ops 13 0 abort => [web Degraded 0 0]
ops 14 0 retry => 422 endless-metric
ops 15 0 start v1 => 422 endless-metric
? 0 service web => {"code":"ok","hold":"none","moment":1767225600,"open":[],"runs":0,
    "service":"web","stable":"v1","status":"Degraded","step":0,"version":"v2","weight":0}
? 0 history web => {"code":"ok","lines":[
    "2026-01-01T00:00:00Z created v1","2026-01-01T00:00:00Z start v2",
    "2026-01-01T00:00:00Z step 0 pause","2026-01-01T00:00:00Z abort"],"service":"web"}
ops 16 0 template u n => [u 4]
ops 17 0 start v1 => [web Healthy 2 100]
ops 18 0 start v1 => 422 already-stable
ops 19 0 template u m => [u 5]
ops 20 0 start v1 => 422 duplicate-metric


# Templates and services have names of their own. A template that is not there goes before too many
# steps and too many templates.
ops 1 0 service v1 => [web Healthy 0 100]
ops 2 0 template web m => [web 1]
ops 3 0 on api service v1 analysis:a+b+c+d+e+f+g+h+i => 422 unknown-template
ops 4 0 on api service v1 65*pause background:a => 422 unknown-template


# A request is judged at the service's last moment where its own is earlier.
ops 1 0 template errs m,interval=60 => [errs 1]
background
ops 4 100 tick => [web Paused 1 20]
agent 1 50 report 1 m:1:90:5 => [web Paused 1 20 | 1 Successful | Running]
agent 2 60 report 1 m:2:160:5 => 422 {"at":0,"code":"future"}
agent 3 40 report 1 m:2:100:5 => 422 {"at":0,"code":"too-early","due":1767225750}


# A command finds the release as time has left it by then, and a refusal leaves it as it was.
ops 1 0 service v1 pause:10 => [web Healthy 1 100]
ops 2 0 start v2 => [web Paused 0 0]
ops 3 9 start v3 => 422 in-progress
ops 4 10 abort => 422 not-in-progress
ops 5 10 promoteFull => 422 not-in-progress
ops 6 10 start v2 => 422 already-stable
ops 7 9 tick => [web Paused 0 0]
ops 8 10 start v3 => [web Paused 0 0]
? 10 service web => {"code":"ok","hold":"none","moment":1767225610,"open":[],"runs":0,
    "service":"web","stable":"v2","status":"Paused","step":0,"version":"v3","weight":0}


# A run that time ends takes no report from that moment on, and a refused report leaves it open.
ops 1 0 template errs m,interval=5 => [errs 1]
ops 2 0 service v1 pause:10 background:errs => [web Healthy 1 100]
ops 3 0 start v2 => [web Paused 0 0]
agent 1 10 report 1 m:1:5:5 => 422 run-closed
agent 2 9 report 1 m:1:9:5 => [web Paused 0 0 | 1 Successful | Running]
ops 4 25 tick => [web Healthy 1 100]
? 25 run web 1 => {"closed":1767225610,"code":"ok","metrics":[
    {"consecutive":0,"counted":1,"dryRun":false,"due":null,"errors":0,"failed":0,
    "inconclusive":0,"measurements":1,"name":"m","passes":1,"phase":"Successful"}
    ],"run":1,"service":"web","started":1767225600,"step":null,"verdict":"Successful"}


# Another command under an old number passes no time.
ops 1 0 service v1 pause:10 pause => [web Healthy 2 100]
ops 2 0 start v2 => [web Paused 0 0]
ops 2 50 abort => 409 reused
? 5 service web => {"code":"ok","hold":"none","moment":1767225605,"open":[],"runs":0,
    "service":"web","stable":"v1","status":"Paused","step":0,"version":"v2","weight":0}


# A background run opens where its step is entered, and never after the last step.
ops 1 0 template errs m => [errs 1]
ops 2 0 service v1 background:errs => [web Healthy 0 100]
ops 3 0 start v2 => [web Healthy 0 100]
agent 1 0 report 1 m:1:0:5 => 422 unknown-run

ops 1 0 template errs m => [errs 1]
ops 2 0 service v1 pause pause background:errs@1 => [web Healthy 2 100]
ops 3 0 start v2 => [web Paused 0 0]
agent 1 0 report 1 m:1:0:5 => 422 unknown-run
ops 4 0 promote => [web Paused 1 0]
agent 2 0 report 1 m:1:0:5 => [web Paused 1 0 | 1 Successful | Successful]

ops 1 0 template errs m => [errs 1]
ops 2 0 service v1 pause background:errs@1 => [web Healthy 1 100]
ops 3 0 start v2 => [web Paused 0 0]
ops 4 0 promote => [web Healthy 1 100]
agent 1 0 report 1 m:1:0:5 => 422 unknown-run


# A background run that opens as time passes starts at the moment at which its step is entered.
ops 1 0 template errs m,interval=60 => [errs 1]
ops 2 0 service v1 pause:10 pause background:errs@1 => [web Healthy 2 100]
ops 3 0 start v2 => [web Paused 0 0]
ops 4 25 tick => [web Paused 1 0]
agent 1 25 report 1 m:1:9:5 => 422 {"at":0,"code":"too-early","due":1767225610}
agent 2 25 report 1 m:1:10:5 => [web Paused 1 0 | 1 Successful | Running]
? 25 run web 1 => {"closed":null,"code":"ok","metrics":[
    {"consecutive":0,"counted":1,"dryRun":false,"due":1767225670,"errors":0,"failed":0,
    "inconclusive":0,"measurements":1,"name":"m","passes":1,"phase":"Running"}
    ],"run":1,"service":"web","started":1767225610,"step":null,"verdict":"Running"}


# While a step is held, a background run that ends well changes nothing, and one that fails aborts.
# Where the step alone is held, its promotion leaves the background run open.
ops 1 0 template t m,success=result>10,failure=result<5 => [t 1]
ops 2 0 template bg g,success=result>10,failure=result<5 => [bg 1]
ops 3 0 service v1 setWeight:10 analysis:t pause background:bg => [web Healthy 3 100]
ops 4 0 start v2 => [web Progressing 1 10]
agent 1 0 report 2 m:1:0:7 => [web Paused 1 10 | 2 Inconclusive | Inconclusive]
agent 2 0 report 1 g:1:0:11 => [web Paused 1 10 | 1 Successful | Successful]
? 0 service web => {"code":"ok","hold":"step","moment":1767225600,"open":[],"runs":2,
    "service":"web","stable":"v1","status":"Paused","step":1,"version":"v2","weight":10}
ops 5 0 promote => [web Paused 2 10]

ops 1 0 template t m,success=result>10,failure=result<5 => [t 1]
ops 2 0 template bg g,success=result>10,failure=result<5 => [bg 1]
ops 3 0 service v1 setWeight:10 analysis:t pause background:bg => [web Healthy 3 100]
ops 4 0 start v2 => [web Progressing 1 10]
agent 1 0 report 2 m:1:0:7 => [web Paused 1 10 | 2 Inconclusive | Inconclusive]
agent 2 0 report 1 g:1:0:3 => [web Degraded 1 0 | 1 Failed | Failed]
? 0 service web => {"code":"ok","hold":"none","moment":1767225600,"open":[],"runs":2,
    "service":"web","stable":"v1","status":"Degraded","step":1,"version":"v2","weight":0}

ops 1 0 template t m,success=result>10,failure=result<5 => [t 1]
ops 2 0 template bg g,interval=60 => [bg 1]
ops 3 0 service v1 analysis:t pause background:bg => [web Healthy 2 100]
ops 4 0 start v2 => [web Progressing 0 0]
agent 1 0 report 2 m:1:0:7 => [web Paused 0 0 | 2 Inconclusive | Inconclusive]
ops 5 0 promote => [web Paused 1 0]
? 0 service web => {"code":"ok","hold":"none","moment":1767225600,"open":[1],"runs":2,
    "service":"web","stable":"v1","status":"Paused","step":1,"version":"v2","weight":0}


# Numbers begin with 1, and a refused request has taken its own.
ops 2 0 tick => 409 {"code":"ahead","expected":1}
ops 1 0 promote => 422 unknown-service
ops 1 0 abort => 409 reused
ops 2 0 service v1 => [web Healthy 0 100]
ops 1 0 promote => 422 unknown-service


# Commands that differ in an order, in how a condition is written, or in one value are others.
ops 1 0 template t a b dryRun:a dryRun:b => [t 1]
ops 1 0 template t a b dryRun:b dryRun:a => 409 reused
ops 1 0 template t b a dryRun:a dryRun:b => 409 reused
ops 2 0 template u m,success=result>1 => [u 1]
ops 2 0 template u m,success=result>01 => 409 reused
ops 2 0 template u m,success=(result>1) => 409 reused
agent 1 0 report 1 m:1:0:5 => 422 unknown-service
agent 1 0 report 1 m:1:1:5 => 409 reused
agent 1 0 report 1 m:1:0:[5] => 409 reused
agent 1 0 report 1 m:1:0:!5 => 409 reused
agent 2 0 report 1 a:1:0:5 b:1:0:5 => 422 unknown-service
agent 2 0 report 1 b:1:0:5 a:1:0:5 => 409 reused
ops 3 0 service v1 => [web Healthy 0 100]
ops 3 0 service v2 => 409 reused


# Each kind of command, and then each again, and others under the same numbers: the moments fall, so
# that a book in a file is opened anew between them.
ops 1 0 template t m,interval=60,success=result==0 n dryRun:n => [t 1]
ops 2 1 service v1 setWeight:20 pause:300 pause background:t => [web Healthy 3 100]
ops 3 2 start v2 => [web Paused 1 20]
ops 4 3 report 1 m:1:2:[1;-2] n:1:2:!no"news => [web Paused 1 20 | 1 Error Error | Running]
ops 5 4 promote => [web Paused 2 20]
ops 6 5 abort => [web Degraded 2 0]
ops 7 6 retry => [web Paused 1 20]
ops 8 7 tick => [web Paused 1 20]
ops 9 8 promoteFull => [web Healthy 3 100]
ops 1 0 template t m,interval=60,success=result==0 n dryRun:n => [t 1]
ops 2 0 service v1 setWeight:20 pause:300 pause background:t => [web Healthy 3 100]
ops 3 0 start v2 => [web Paused 1 20]
ops 4 0 report 1 m:1:2:[1;-2] n:1:2:!no"news => [web Paused 1 20 | 1 Error Error | Running]
ops 5 0 promote => [web Paused 2 20]
ops 6 0 abort => [web Degraded 2 0]
ops 7 0 retry => [web Paused 1 20]
ops 8 0 tick => [web Paused 1 20]
ops 9 0 promoteFull => [web Healthy 3 100]
ops 1 0 template t m,interval=60,success=result==0 n dryRun:m => 409 reused
ops 2 0 service v1 setWeight:20 pause:300 pause => 409 reused
ops 3 0 start v3 => 409 reused
ops 4 0 report 1 m:1:2:[1;-2] n:1:2:!news => 409 reused
ops 5 0 promoteFull => 409 reused


# A release in its second attempt, with a measurement of each: what may be done next.
ops 1 0 template t m,success=result>9,count=3,interval=60 => [t 1]
ops 2 0 service v1 setWeight:10 analysis:t setWeight:60 pause => [web Healthy 4 100]
ops 3 0 start v2 => [web Progressing 1 10]
agent 1 0 report 1 m:1:0:5 => [web Degraded 1 0 | 1 Failed | Failed]
ops 4 0 retry => [web Progressing 1 10]
agent 2 0 report 2 m:1:0:10 => [web Progressing 1 10 | 2 Successful | Running]
ops 5 0 template s m => [s 1]
ops 6 0 start v3 => 422 in-progress
agent 3 60 report 2 m:2:60:!down => [web Progressing 1 10 | 2 Error | Running]
ops 7 60 abort => [web Degraded 1 0]

ops 1 0 template t m,success=result>9,count=3,interval=60 => [t 1]
ops 2 0 service v1 setWeight:10 analysis:t setWeight:60 pause => [web Healthy 4 100]
ops 3 0 start v2 => [web Progressing 1 10]
agent 1 0 report 1 m:1:0:5 => [web Degraded 1 0 | 1 Failed | Failed]
ops 4 0 retry => [web Progressing 1 10]
agent 2 0 report 2 m:1:0:10 => [web Progressing 1 10 | 2 Successful | Running]
ops 5 0 promoteFull => [web Healthy 4 100]


# A release at a pause that ends at 300, with an open run: what may be done next.
ops 1 0 template t m => [t 1]
ops 2 0 service v1 setWeight:20 pause:300 analysis:t background:t => [web Healthy 3 100]
ops 3 0 start v2 => [web Paused 1 20]
ops 4 0 template s m => [s 1]
ops 5 0 template t m => [t 2]
ops 6 0 start v3 => 422 in-progress
agent 1 1 report 1 m:1:0:!down => [web Paused 1 20 | 1 Error | Running]
ops 7 1 abort => [web Degraded 1 0]

ops 1 0 template t m => [t 1]
ops 2 0 service v1 setWeight:20 pause:300 analysis:t background:t => [web Healthy 3 100]
ops 3 0 start v2 => [web Paused 1 20]
ops 4 300 tick => [web Progressing 2 20]

ops 1 0 template t m => [t 1]
ops 2 0 service v1 setWeight:20 pause:300 analysis:t background:t => [web Healthy 3 100]
ops 3 0 start v2 => [web Paused 1 20]
ops 4 251603539199 tick => [web Progressing 2 20]


# A clock that has come to the greatest moment stands still.
ops 1 251603539198 service v1 pause => [web Healthy 1 100]
? 251603539203 service web => {"code":"ok","hold":"none","moment":253370764799,"open":[],"runs":0,
    "service":"web","stable":"v1","status":"Healthy","step":1,"version":"v1","weight":100}
