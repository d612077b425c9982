imports 104

# Rows that are no request, all in one file.
rows
agent,0,web,1,m,1,1767225600,5, => 400 bad-number
agent,1,web,1,m,1,1767225600,5 => 400 unreadable
agent,1,web,1,m,1,1767225600,5,, => 400 unreadable
agent => 400 unreadable
-agent,0,web,1,m,1,1767225600,5 => 400 unreadable
-agent,0,-web,1,m,1,1767225600,5, => 400 bad-name
Agent,1,web,1,m,1,1767225600,5, => 400 bad-name
agent,007,-web,1,m,1,1767225600,5, => 400 bad-number
agent,1000000001,web,1,m,1,1767225600,5, => 400 bad-number
agent,1,-web,1,m,1,1767225600,5, => 400 unreadable
agent,1,web,0,m,1,1767225600,5, => 400 unreadable
agent,1,web,1,m m,1,1767225600,5, => 400 unreadable
agent,1,web,1,m,0,1767225600,5, => 400 unreadable
agent,1,web,1,m,01,1767225600,5, => 400 unreadable
agent,1,web,1,m,1,253370764800,5, => 400 unreadable
agent,1,web,1,m,1,1767225600,, => 400 unreadable
agent,1,web,1,m,1,1767225600,5,timeout => 400 unreadable
agent,1,web,1,m,1,1767225600,-0, => 400 unreadable
agent,1,web,1,m,1,1767225600,05, => 400 unreadable
agent,1,web,1,m,1,1767225600,5.0, => 400 unreadable
agent,1,web,1,m,1,1767225600,[], => 400 unreadable
agent,1,web,1,m,1,1767225600,[1; 2], => 400 unreadable
agent,1,web,1,m,1,1767225600,9223372036854775808, => 400 unreadable
agent, 1,web,1,m,1,1767225600,5, => 400 bad-number
caller,number,service,run,metric,ordinal,taken,result,failure => 400 bad-number

# Limits of a row's fields. A row that reads is ahead.
rows
agent,1,web,01,m,1,1767225600,5, => 400 unreadable
agent,1,web,1000000001,m,1,1767225600,5, => 400 unreadable
agent,1,web,1,m,1000000001,1767225600,5, => 400 unreadable
agent,1,web,1,m,1,01767225600,5, => 400 unreadable
agent,1,web,1,m,1,,5, => 400 unreadable
agent,1,web,1,m,1,1767225600,[1<<16*;1>>], => 400 unreadable
agent,2,web,1,m,1,1767225600,[1<<15*;1>>], => 409 {"code":"ahead","expected":1}
agent,1,web,1,m,1,1767225600,,<<201*a>> => 400 unreadable
agent,2,web,1,m,1,1767225600,,<<200*a>> => 409 {"code":"ahead","expected":1}
agent,1,web,1,m,1,1767225600,,<<101*é>> => 400 unreadable
agent,1,web,1,m,1,1767225600,,a<<x:ff>> => 400 unreadable

# Forms of a name, a number and a result. Nothing is trimmed: a space alone is a failure's text.
rows
,1,web,1,m,1,1767225600,5, => 400 bad-name
agent,,web,1,m,1,1767225600,5, => 400 bad-number
agent,+1,web,1,m,1,1767225600,5, => 400 bad-number
agent,1,web,1,m,1,1767225600,+5, => 400 unreadable
agent,1,web,1,m,1,1767225600,-05, => 400 unreadable
agent,1,web,1,m,1,1767225600,[1;-0], => 400 unreadable
agent,1,web,1,m,1,1767225600,[1;], => 400 unreadable
agent,1,web,1,m,1,1767225600, 5, => 400 unreadable
agent,1,web,1,m,1,+1767225600,5, => 400 unreadable
agent,2,web,1,m,1,1767225600,,  => 409 {"code":"ahead","expected":1}

# Rows that are one: in quotes, with quotes and ends of line in a failure, with empty lines between
# them, ahead, again, and refused; and at the end a quote that nothing closes.
rows
agent,1,web,1,m,1,1767225600,[1;-2], => Successful
agent,2,web,1,m,2,1767225660,-9223372036854775808, => Successful
"agent","3","web","1","m","3","1767225720","5","" => Successful
agent,4,web,1,m,4,1767225780,,"down, ""again""" => Error
agent,5,web,1,m,5,1767225840,,"down|again" => Error
||agent,6,web,1,m,6,1767225900,5,| => Successful
agent,8,web,1,m,7,0,5, => 409 {"code":"ahead","expected":7}
agent,6,web,1,m,6,1767225900,6, => 409 reused
agent,7,web,2,m,1,1767225600,5, => 422 unknown-run
agent,8,api,1,m,1,1767225600,5, => 422 unknown-service
agent,9,web,1,n,1,1767225600,5, => 422 {"at":0,"code":"unknown-metric"}
agent,10,web,1,m,8,1767225960,5, => 422 {"at":0,"code":"out-of-turn","expected":7}
agent,11,web,1,m,7,253370764799,5, => 422 {"at":0,"code":"future"}
agent,6,web,1,m,6,1767225900,5, => Successful
agent,12,web,1,m,7,1767225960,,"down => Error

# Files without any row.
silent
|||
<<x:efbbbf>>
caller,number,service,run,metric,ordinal,taken,result,failure
<<x:efbbbf>>caller,number,service,run,metric,ordinal,taken,result,failure|
"caller","number","service","run","metric","ordinal","taken","result","failure"|
|caller,number,service,run,metric,ordinal,taken,result,failure||
caller,number,service,run,metric,ordinal,taken,result,failure<<x:0d>>

# Files whose first record is not the header.
other headers
caller,number,service,run,metric,ordinal,taken,result|agent
Caller,number,service,run,metric,ordinal,taken,result,failure
caller, number,service,run,metric,ordinal,taken,result,failure
caller,number,service,run,metric,ordinal,taken,result,failure,|
caller,number,service,run,metric,ordinal,taken,failure,result
caller;number;service;run;metric;ordinal;taken;result;failure
agent,1,web,1,m,1,1767225600,5,
x

# Two runs at a time, and two more after an abort, each with metrics of its own.
export
ops 1 0 template errs m,interval=60 => [errs 1]
ops 2 0 template t a,interval=60,count=9 b => [t 1]
ops 3 0 service v1 analysis:t background:errs => [web Healthy 1 100]
ops 4 0 start v2 => [web Progressing 0 0]
agent 1 0 report 1 m:1:0:5 => [web Progressing 0 0 | 1 Successful | Running]
agent 2 0 report 2 b:1:0:[1;-2] => [web Progressing 0 0 | 2 Successful | Running]
agent 3 60 report 1 m:2:60:!timed,"out" => [web Progressing 0 0 | 1 Error | Running]
ops 5 60 abort => [web Degraded 0 0]
ops 6 60 retry => [web Progressing 0 0]
agent 4 120 report 4 a:1:120:-7 => [web Progressing 0 0 | 4 Successful | Running]
copy,1,web,1,m,1,1767225600,5,|copy,2,web,2,b,1,1767225600,[1;-2],|
    copy,3,web,1,m,2,1767225660,,"timed,""out"""|copy,4,web,4,a,1,1767225720,-7,|

# The measurements of one report, in the order of its entries, and not in that of the run's metrics;
# a refused report leaves no row.
export
ops 1 0 template errs m,interval=60 => [errs 1]
ops 2 0 template t a b => [t 1]
ops 3 0 service v1 analysis:t background:errs => [web Healthy 1 100]
ops 4 0 start v2 => [web Progressing 0 0]
agent 1 0 report 2 a:1:0:9 x:1:0:9 => 422 {"at":1,"code":"unknown-metric"}
agent 2 0 report 2 b:1:0:2 a:1:0:1 => [web Healthy 1 100 | 2 Successful Successful | Successful]
copy,1,web,2,b,1,1767225600,2,|copy,2,web,2,a,1,1767225600,1,|

# A run's metrics are those of the revision to which its attempt was bound.
export
ops 1 0 template t a,success=result==0 b => [t 1]
ops 2 0 service v1 analysis:t => [web Healthy 1 100]
ops 3 0 start v2 => [web Progressing 0 0]
ops 4 0 template t b c,success=result==0,count=2,interval=10 => [t 2]
agent 1 0 report 1 b:1:0:7 => [web Progressing 0 0 | 1 Successful | Running]
agent 2 0 report 1 a:1:0:9 => [web Degraded 0 0 | 1 Failed | Failed]
ops 5 0 retry => [web Progressing 0 0]
ops 6 0 template t z => [t 3]
agent 3 0 report 2 c:1:0:0 b:1:0:8 => [web Progressing 0 0 | 2 Successful Successful | Running]
copy,1,web,1,b,1,1767225600,7,|copy,2,web,1,a,1,1767225600,9,|
    copy,3,web,2,c,1,1767225600,0,|copy,4,web,2,b,1,1767225600,8,|
