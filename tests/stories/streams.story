streams 132

# A doubled promotion, a number ahead, another command under an old number, the start in other
# words, and on to the end.
messages
ops/1 => {"service":{"manifest":{"metadata":{"name":"web"},"spec":{"strategy":{"canary":{
    "steps":[{"setWeight":20},{"pause":{}},{"setWeight":50},{"pause":{}}]}}}},"version":"v1"}}
     => 200 OK => {"code":"ok","service":"web","status":"Healthy","step":4,"weight":100}
ops/2 => {"start":{"service":"web","version":"v2"}}
     => 200 OK => {"code":"ok","service":"web","status":"Paused","step":1,"weight":20}
ops/3 => {"promote":{"service":"web"}}
     => 200 OK => {"code":"ok","service":"web","status":"Paused","step":3,"weight":50}
ops/3 => {"promote":{"service":"web"}}
     => 200 OK => {"code":"ok","service":"web","status":"Paused","step":3,"weight":50}
ops/5 => {"promote":{"service":"web"}} => 409 Conflict => {"code":"ahead","expected":4}
ops/3 => {"start":{"service":"web","version":"v3"}} => 409 Conflict => {"code":"reused"}
ops/2 => { "start" : {"version":"v2", "service":"web"} }
     => 200 OK => {"code":"ok","service":"web","status":"Paused","step":1,"weight":20}
ops/4 => {"promote":{"service":"web"}}
     => 200 OK => {"code":"ok","service":"web","status":"Healthy","step":4,"weight":100}
ops/5 => {"promote":{"service":"web"}} => 422 Unprocessable Content => {"code":"not-in-progress"}

# What is reported of a service after its start.
each after 2 of the release
/services/web => 200 OK => {"code":"ok","hold":"none","moment":1767225602,"open":[],"runs":0,
    "service":"web","stable":"v1","status":"Paused","step":1,"version":"v2","weight":20}
/services/web?x=1
     => 200 OK => {"code":"ok","hold":"none","moment":1767225602,"open":[],"runs":0,
    "service":"web","stable":"v1","status":"Paused","step":1,"version":"v2","weight":20}
/services/api => 404 Not Found => {"code":"unknown-service"}
/services/web/runs/1 => 404 Not Found => {"code":"unknown-run"}
/services/web/runs/0 => 400 Bad Request => {"code":"bad-number"}
/services/-x => 400 Bad Request => {"code":"bad-name"}
/services/-x/runs/0 => 400 Bad Request => {"code":"bad-name"}
/services/web/ => 404 Not Found => {"code":"no-route"}
/services/web/history/ => 404 Not Found => {"code":"no-route"}
/services/web/runs => 404 Not Found => {"code":"no-route"}

# What is reported after the first promotion.
each after 3 of the release
/services/web/history => 200 OK => {"code":"ok","lines":["2026-01-01T00:00:00Z created v1",
    "2026-01-01T00:00:01Z start v2","2026-01-01T00:00:01Z step 0 setWeight 20",
    "2026-01-01T00:00:01Z step 1 pause","2026-01-01T00:00:02Z promote",
    "2026-01-01T00:00:02Z step 2 setWeight 50","2026-01-01T00:00:02Z step 3 pause"],
    "service":"web"}

# An analysis that is neither Successful nor Failed holds its step, until it is promoted.
messages
ops/1 => {"template":{"kind":"AnalysisTemplate","metadata":{"name":"t"},"spec":{"metrics":[
    {"name":"m","successCondition":"result > 10","failureCondition":"result < 5"}]}}}
     => 200 OK => {"code":"ok","revision":1,"template":"t"}
ops/2 => {"service":{"manifest":{"kind":"Rollout","metadata":{"name":"web"},"spec":{"strategy":{
    "canary":{"steps":[{"setWeight":10},{"analysis":{"templates":[{"templateName":"t"}]}},
    {"setWeight":60},{"pause":{}}]}}}},"version":"v1"}}
     => 200 OK => {"code":"ok","service":"web","status":"Healthy","step":4,"weight":100}
ops/3 => {"start":{"service":"web","version":"v2"}}
     => 200 OK => {"code":"ok","service":"web","status":"Progressing","step":1,"weight":10}
agent/1 => {"report":{"service":"web","run":1,"entries":[
    {"metric":"m","ordinal":1,"taken":1767225603,"result":7}]}}
     => 200 OK => {"code":"ok","phases":["Inconclusive"],"run":1,"service":"web","status":"Paused",
    "step":1,"verdict":"Inconclusive","weight":10}
ops/4 => {"promote":{"service":"web"}}
     => 200 OK => {"code":"ok","service":"web","status":"Paused","step":3,"weight":60}

# Templates that are one command, and one that is another; under a new number it is the next
# revision of its name.
messages
ops/1 => {"template":{"metadata":{"name":"t"},"spec":{"args":[{"name":"host"}],"metrics":[
    {"name":"m","interval":"1m","provider":{"web":{"url":"https://a"}}}]}}}
     => 200 OK => {"code":"ok","revision":1,"template":"t"}
ops/1 => {"template": {"spec": { "metrics": [ {"provider":{"job":{}}, "interval":"1m",
     "name":"m"} ], "args":[] }, "metadata": {"name":"t"}} }
     => 200 OK => {"code":"ok","revision":1,"template":"t"}
ops/1 => {"template":{"metadata":{"name":"t"},"spec":{"args":[{"name":"host"}],"metrics":[
    {"name":"m","interval":"2m","provider":{"web":{"url":"https://a"}}}]}}}
     => 409 Conflict => {"code":"reused"}
ops/2 => {"template":{"metadata":{"name":"t"},"spec":{"args":[{"name":"host"}],"metrics":[
    {"name":"m","interval":"2m","provider":{"web":{"url":"https://a"}}}]}}}
     => 200 OK => {"code":"ok","revision":2,"template":"t"}
ops/1 => {"template":{"metadata":{"name":"t"},"spec":{"metrics":[{"name":"m","interval":"60s"}]}}}
     => 200 OK => {"code":"ok","revision":1,"template":"t"}

# A body that is no command is rejected under a settled number, too.
messages
ops/1 => {"tick":{"service":"web"}} => 422 Unprocessable Content => {"code":"unknown-service"}
ops/1 => {} => 400 Bad Request => {"code":"unreadable"}
ops/1 => {"tick":{"service":"web"}} => 422 Unprocessable Content => {"code":"unknown-service"}

# Streams that end before their first message, and within one.
unanswered 0
<<x:>>
|
<<x:0a>>
<<x:0d>>
<<x:0a0d0a0a>>
<<8191*|>>

unanswered 1
P
PUT /callers/ops
PUT /callers/ops/requests/1 HTTP/1.1|Content-Length: 9||{}

# What closes the stream.
answered with Connection: close
GET /nope HTTP/1.1|no colon|| => 400 Bad Request => {"code":"malformed"}
GET /nope HTTP/1.1|Content-Length: 0|Content-Length: 0|| => 400 Bad Request => {"code":"malformed"}
GET /nope HTTP/1.1|Content-Length: +1|| => 400 Bad Request => {"code":"malformed"}
GET /nope HTTP/1.1|Transfer-Encoding: chunked|| => 411 Length Required => {"code":"length"}
PUT /callers/ops/requests/1 HTTP/1.1|| => 411 Length Required => {"code":"length"}
PUT /nope HTTP/1.1|Content-Length: 65537||GET /nope HTTP/1.1||
     => 413 Content Too Large => {"code":"too-long"}
GET /nope HTTP/1.0||GET /nope HTTP/1.1|| => 404 Not Found => {"code":"no-route"}
GET /nope HTTP/1.1|connection: Keep-Alive, CLOSE||GET /nope HTTP/1.1||
     => 404 Not Found => {"code":"no-route"}
GET /nope HTTP/1.1<<65*|a: b>>|| => 400 Bad Request => {"code":"malformed"}
GET /nope HTTP/1.1|a:<<16359*a>>|| => 400 Bad Request => {"code":"malformed"}
GET /nope HTTP/1.1|Content-Length:|| => 400 Bad Request => {"code":"malformed"}
GET /nope HTTP/1.1|Content-Length: 0, 0|| => 400 Bad Request => {"code":"malformed"}
GET /nope HTTP/1.1|Content-Length: x|Transfer-Encoding: chunked||
     => 400 Bad Request => {"code":"malformed"}
GET /nope HTTP/1.1|Content-Length: 99999999999999999999||
     => 413 Content Too Large => {"code":"too-long"}
GET /nope HTTP/1.1|Connection: keep-alive|Connection: close||GET /nope HTTP/1.1||
     => 404 Not Found => {"code":"no-route"}
GET /nope HTTP/1.0|Connection: keep-alive||GET /nope HTTP/1.1||
     => 404 Not Found => {"code":"no-route"}

# Any Transfer-Encoding is refused for want of a length, and a PUT without one on any path. Each
# Connection field counts, word by word between its commas.
answered with Connection: close
GET /nope HTTP/1.1|Transfer-Encoding: identity|| => 411 Length Required => {"code":"length"}
PUT /services/web HTTP/1.1|| => 411 Length Required => {"code":"length"}
GET /nope HTTP/1.1|Connection: close|Connection: keep-alive||GET /nope HTTP/1.1||
     => 404 Not Found => {"code":"no-route"}
GET /nope HTTP/1.1|Connection: a,<<x:09>>close<<x:09>>,b||GET /nope HTTP/1.1||
     => 404 Not Found => {"code":"no-route"}

# Heads with a space too many, a field that goes on in the next line, other versions, a path that is
# not UTF-8; ends of line that fill the room of a head, and a head that has no room after them.
answered with Connection: close
GET /nope HTTP/1.1|Content-Length : 0|| => 400 Bad Request => {"code":"malformed"}
GET /nope HTTP/1.1| Content-Length: 0|| => 400 Bad Request => {"code":"malformed"}
GET /nope HTTP/1.1|a: b| c|| => 400 Bad Request => {"code":"malformed"}
GET  /nope HTTP/1.1|| => 400 Bad Request => {"code":"malformed"}
GET /nope  HTTP/1.1|| => 400 Bad Request => {"code":"malformed"}
GET /nope HTTP/1.1 || => 400 Bad Request => {"code":"malformed"}
GET /nope HTTP/1.2|| => 400 Bad Request => {"code":"malformed"}
GET /nope HTTP/2.0|| => 400 Bad Request => {"code":"malformed"}
GET /nope|| => 400 Bad Request => {"code":"malformed"}
<<8192*|>> => 400 Bad Request => {"code":"malformed"}
<<8182*|>>GET /nope HTTP/1.1|| => 400 Bad Request => {"code":"malformed"}
GET /services/<<x:ff>> HTTP/1.1|| => 400 Bad Request => {"code":"malformed"}
 GET /nope HTTP/1.1|| => 400 Bad Request => {"code":"malformed"}

# What is answered, and the stream goes on. Behind the refusals: 64 fields, a head of 16,384 bytes,
# and a body of 65,536.
answered
GET /nope HTTP/1.1|Content-Length: 2||hi| => 404 Not Found => {"code":"no-route"}
GET /services/web HTTP/1.1|| => 404 Not Found => {"code":"unknown-service"}
GET /services/web/history HTTP/1.1|| => 404 Not Found => {"code":"unknown-service"}
GET /services/web/runs/1 HTTP/1.1|| => 404 Not Found => {"code":"unknown-service"}
GET /services/ HTTP/1.1|| => 404 Not Found => {"code":"no-route"}
PUT /callers//requests/1 HTTP/1.1|content-length: 0|| => 404 Not Found => {"code":"no-route"}
PUT /callers/ops/requests/1/ HTTP/1.1|content-length: 0|| => 404 Not Found => {"code":"no-route"}
PUT /callers/-x/requests/0 HTTP/1.1|content-length: 0|| => 400 Bad Request => {"code":"bad-name"}
PUT /callers/ops/requests/0 HTTP/1.1|content-length: 0|| => 400 Bad Request => {"code":"bad-number"}
PUT /callers/ops/requests/007 HTTP/1.1|content-length: 0||
     => 400 Bad Request => {"code":"bad-number"}
PUT /callers/ops/requests/1000000001 HTTP/1.1|content-length: 0||
     => 400 Bad Request => {"code":"bad-number"}
PUT /callers/ops/requests/1000000000 HTTP/1.1|content-length: 2||{}
     => 400 Bad Request => {"code":"unreadable"}
PUT /callers/ops/requests/1 HTTP/1.1|content-length: 46||
    {"service":{"manifest":{"kind":"Deployment"}}}
     => 400 Bad Request => {"code":"unsupported"}
PUT /callers/ops/requests/2 HTTP/1.1|content-length: 29||{"promote":{"service":"web"}}
     => 409 Conflict => {"code":"ahead","expected":1}
PUT /callers/ops/requests/1 HTTP/1.1|content-length: 29||{"promote":{"service":"web"}}
     => 422 Unprocessable Content => {"code":"unknown-service"}
GET /nope HTTP/1.1<<64*|a: b>>|| => 404 Not Found => {"code":"no-route"}
GET /nope HTTP/1.1|a:<<16358*a>>|| => 404 Not Found => {"code":"no-route"}
PUT /callers/ops/requests/1 HTTP/1.1|Content-Length: 65536||<<65536*a>>
     => 400 Bad Request => {"code":"unreadable"}
GET /nope HTTP/1.1|Content-Length: 002||hi => 404 Not Found => {"code":"no-route"}
DELETE /nope HTTP/1.1|| => 404 Not Found => {"code":"no-route"}
GET /services/w%65b HTTP/1.1|| => 400 Bad Request => {"code":"bad-name"}
GET http://127.0.0.1/services/web HTTP/1.1|| => 404 Not Found => {"code":"no-route"}

# Heads after ends of line, and with ends of line of one byte; names of fields in other letters,
# and blanks round a value; words that are not close; paths, each up to its first question mark.
answered
<<8181*|>>GET /nope HTTP/1.1|| => 404 Not Found => {"code":"no-route"}
||GET /nope HTTP/1.1|| => 404 Not Found => {"code":"no-route"}
GET /nope HTTP/1.1<<x:0a0a>> => 404 Not Found => {"code":"no-route"}
GET /nope HTTP/1.1|CONTENT-LENGTH:2||hi| => 404 Not Found => {"code":"no-route"}
GET /nope HTTP/1.1|cOntent-length:<<x:09>>  2 <<x:09>>||hi| => 404 Not Found => {"code":"no-route"}
DELETE /nope HTTP/1.1|Content-Length: 2||hi| => 404 Not Found => {"code":"no-route"}
POST /nope HTTP/1.1|| => 404 Not Found => {"code":"no-route"}
GET /nope HTTP/1.1|Connection: close x, closed|Proxy-Connection: close||
     => 404 Not Found => {"code":"no-route"}
GET /nope HTTP/1.1|Connection: close;q=1|| => 404 Not Found => {"code":"no-route"}
GET /nope HTTP/1.1|a: <<x:e9>>|| => 404 Not Found => {"code":"no-route"}
GET /services/w<<x:c3a9>>b HTTP/1.1|| => 400 Bad Request => {"code":"bad-name"}
GET /services/web?a?b HTTP/1.1|| => 404 Not Found => {"code":"unknown-service"}
GET /services/web? HTTP/1.1|| => 404 Not Found => {"code":"unknown-service"}
GET /services/web;a HTTP/1.1|| => 400 Bad Request => {"code":"bad-name"}
GET /services/web#a HTTP/1.1|| => 400 Bad Request => {"code":"bad-name"}
GET /Services/web HTTP/1.1|| => 404 Not Found => {"code":"no-route"}
GET /services//web HTTP/1.1|| => 404 Not Found => {"code":"no-route"}
GET /services/web/runs/1000000001 HTTP/1.1|| => 400 Bad Request => {"code":"bad-number"}
GET /services/web/runs/1000000000 HTTP/1.1|| => 404 Not Found => {"code":"unknown-service"}

# Other methods.
answered with Allow: PUT
DELETE /callers/ops/requests/1 HTTP/1.1|| => 405 Method Not Allowed => {"code":"method"}
put /callers/ops/requests/1 HTTP/1.1|| => 405 Method Not Allowed => {"code":"method"}
GET /callers/ops/requests/1 HTTP/1.1|| => 405 Method Not Allowed => {"code":"method"}

answered with Allow: GET
PUT /services/web HTTP/1.1|content-length: 0||
     => 405 Method Not Allowed => {"code":"method"}
PUT /services/web/history HTTP/1.1|content-length: 2||{}
     => 405 Method Not Allowed => {"code":"method"}
DELETE /services/web/runs/1 HTTP/1.1|| => 405 Method Not Allowed => {"code":"method"}
get /services/web HTTP/1.1|| => 405 Method Not Allowed => {"code":"method"}

# Each byte that is written. A HEAD has no body; the body of a query is ignored.
bytes
HEAD /callers/ops/requests/1?x HTTP/1.1|| => HTTP/1.1 405 Method Not Allowed|Content-Type: application/json|Content-Length: 17|Allow: PUT||
HEAD /services/web HTTP/1.1|| => HTTP/1.1 405 Method Not Allowed|Content-Type: application/json|Content-Length: 17|Allow: GET||
GET /nope HTTP/1.1|| => HTTP/1.1 404 Not Found|Content-Type: application/json|Content-Length: 19||{"code":"no-route"}
GET /services/web HTTP/1.1|Content-Length: 2||{}GET /nope HTTP/1.1|| =>
     HTTP/1.1 404 Not Found|Content-Type: application/json|Content-Length: 26||{"code":"unknown-service"}
    HTTP/1.1 404 Not Found|Content-Type: application/json|Content-Length: 19||{"code":"no-route"}
HEAD /nope HTTP/1.1|| => HTTP/1.1 404 Not Found|Content-Type: application/json|Content-Length: 19||
HEAD /services/web HTTP/1.1|Content-Length: x|| => HTTP/1.1 400 Bad Request|Content-Type: application/json|Content-Length: 20|Connection: close||
head /nope HTTP/1.1|| => HTTP/1.1 404 Not Found|Content-Type: application/json|Content-Length: 19||{"code":"no-route"}
DELETE /services/web HTTP/1.0|| => HTTP/1.1 405 Method Not Allowed|Content-Type: application/json|
    Content-Length: 17|Allow: GET|Connection: close||{"code":"method"}
PUT /callers/ops/requests/1 HTTP/1.1|Expect: 100-continue|Content-Length: 2||{} => HTTP/1.1 400 Bad Request|Content-Type: application/json|Content-Length: 21||{"code":"unreadable"}
