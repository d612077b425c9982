bodies 286

# Bodies; other members and kinds; names and labels; and at the end what is unsupported before it is
# unreadable, which holds in a body of one member alone. Then bytes: blanks round a body, blanks
# alone, nothing, a mark before the text, and a byte that is no UTF-8.
between ...
reads {"promote":{"service":"web"}}
unreadable {}
unreadable null
unreadable [{"promote":{"service":"web"}}]
unreadable {"promote":{"service":"web"}}}
unreadable {"promote":{"service":"web"}} 0
unreadable {"promote":{"service":"web"}
unreadable {"promote":{"service":"web"},"start":{"service":"web","version":"v2"}}
unreadable {"promote":{"service":"web","version":"v2"}}
unreadable {"promote":{"service":null}}
unreadable {"promote":"web"}
unreadable {"promote":null}
unreadable {"Promote":{"service":"web"}}
reads {"template":{"metadata":{"name":"t"},"spec":{"metrics":[{"name":"m"}]}}}
unreadable {"start":{"service":"web","version":"v2","x":null}}
unreadable {"start":{"service":"web","x":"v2"}}
unreadable {"start":{"service":"web"}}
reads {"start":{"service":"web","version":"V2.0_rc-1"}}
unreadable {"start":{"service":"web","version":""}}
unreadable {"start":{"service":"web","version":"v 2"}}
unreadable {"start":{"service":"Web","version":"v2"}}
unreadable {"promote":{"service":"-web"}}
reads {"promote":{"service":"w\u0065b"}}
unsupported {"service":{"manifest":{"kind":"Deployment"},"x":0}}
unreadable {"service":{"manifest":{"kind":"Deployment"}},"x":0}
unreadable {"service":{"manifest":{"kind":"Deployment"}}} 0
reads <<x:090a>>{"promote":{"service":"web"}}<<x:200d0a>>
unreadable <<x:20>>
unreadable <<x:>>
unreadable <<x:efbbbf>>{"promote":{"service":"web"}}
reads {"promote":{"service":"w<<x:65>>b"}}
unreadable {"promote":{"service":"w<<x:ff>>b"}}
unsupported {"template":{"spec":{"measurementRetention":[{"metricName":"a"}]}}}
reads {"promote":{"service":"2"}}
unreadable {"promote":{"service":"we_b"}}
reads {"start":{"service":"web","version":"<<63*v>>"}}
unreadable {"start":{"service":"web","version":"<<64*v>>"}}

# More names and labels, and the members of a service.
between ...
reads {"promote":{"service":"a--b"}}
unreadable {"promote":{"service":"we.b"}}
unreadable {"start":{"service":"web","version":"v1+2"}}
unreadable {"start":{"service":"web","version":null}}
unreadable {"service":{"manifest":{"metadata":{"name":"web"},"spec":{"strategy":{"canary":{}}}}}}
unreadable {"service":{"manifest":{"metadata":{"name":"web"},"spec":{"strategy":{"canary":{}}}},
    "version":"v1","x":null}}
unreadable {"service":{"manifest":{"metadata":{"name":"web"},"spec":{"strategy":{"canary":{}}}},
    "x":"v1"}}
unreadable {"service":{"manifest":{"metadata":{"name":"web"},"spec":{"strategy":{"canary":{}}}},
    "version":null}}
unreadable {"service":{"manifest":{"metadata":{"name":"web"},"spec":{"strategy":{"canary":{}}}},
    "version":"v 1"}}
unreadable {"service":{"x":{"metadata":{"name":"web"},"spec":{"strategy":{"canary":{}}}},
    "version":"v1"}}
reads {"service":{"manifest":{"apiVersion":"apps/v1","metadata":{"name":"web"},
    "spec":{"strategy":{"canary":{}}}},"version":"v1"}}

# Commands that have a service alone, each with it, and with one member more.
between ...
reads {"promoteFull":{"service":"web"}}
unreadable {"promoteFull":{"service":"web","version":"v2"}}
reads {"abort":{"service":"web"}}
unreadable {"abort":{"service":"web","x":null}}
reads {"retry":{"service":"web"}}
unreadable {"retry":{"service":"web","version":"v2"}}
reads {"tick":{"service":"web"}}
unreadable {"tick":{"service":"web","at":0}}

# The members of a template.
between {"template":{"metadata":{"name":"t"}, ... }}
reads "spec":{"metrics":[{"name":"m"}]}
reads "kind":"AnalysisTemplate","spec":{"metrics":[{"name":"m"}],"args":[{"name":"x"}]}
unsupported "kind":"ClusterAnalysisTemplate","spec":{"metrics":[{"name":"m"}]}
unreadable "metadata":{"name":"T"},"spec":{"metrics":[{"name":"m"}]}
unreadable "metadata":{},"spec":{"metrics":[{"name":"m"}]}
unreadable "metadata":null,"spec":{"metrics":[{"name":"m"}]}
unreadable "kind":"AnalysisTemplate"
unreadable "spec":null
unreadable "spec":{}
unreadable "spec":{"metrics":[]}
unreadable "spec":{"metrics":{"name":"m"}}
unreadable "spec":{"metrics":[{"name":"m 1"}]}
unreadable "spec":{"metrics":[{"provider":{}}]}
reads "spec":{"metrics":[{"name":"m"}],"dryRun":[]}
reads "spec":{"metrics":[{"name":"m"}],"dryRun":[{"metricName":".*"}]}
unreadable "spec":{"metrics":[{"name":"m"}],"dryRun":[{"metricName":""}]}
unreadable "spec":{"metrics":[{"name":"m"}],"dryRun":[{}]}
reads "spec":{"metrics":[{"name":"m"}],"measurementRetention":[]}
unsupported "spec":{"metrics":[{"name":"m"}],"measurementRetention":[{"metricName":"a"}]}
reads "spec":{"metrics":[{"name":"m"}],"templates":[]}
unsupported "spec":{"metrics":[{"name":"m"}],"templates":[{"templateName":"a"}]}
reads "spec":{"metrics":[{"name":"m"}<<31*,{"name":"m"}>>]}
unreadable "spec":{"metrics":[{"name":"m"}<<32*,{"name":"m"}>>]}
reads "spec":{"metrics":[{"name":"m"}],"dryRun":[{"metricName":"<<63*a>>"}]}
unreadable "spec":{"metrics":[{"name":"m"}],"dryRun":[{"metricName":"<<64*a>>"}]}
unreadable "spec":{"metrics":[{"name":"m"}],"dryRun":[{"metricName":"<<32*é>>"}]}
unreadable "spec":{"metrics":[null]}
unreadable "spec":{"metrics":[{"name":"m"}],"dryRun":[null]}
unreadable "spec":{"metrics":[{"name":"m"}],"dryRun":{"metricName":"m"}}
unsupported "spec":{"metrics":[{"name":"m"},{"consecutiveSuccessLimit":1}]}
unsupported "kind":"analysistemplate","spec":{"metrics":[{"name":"m"}]}

# Those of a metric.
between {"template":{"metadata":{"name":"t"},"spec":{"metrics":[{"name":"success-rate", ... }]}}}
reads "interval":"1m","initialDelay":"30s","count":5,"failureLimit":1,
    "inconclusiveLimit":2,"consecutiveErrorLimit":3,"successCondition":"result > 1",
    "failureCondition":"result < 0"
reads "interval":"1m","initialDelay":"30s","count":"5","failureLimit":"1",
    "inconclusiveLimit":"2","consecutiveErrorLimit":"3","successCondition":"result > 1",
    "failureCondition":"result < 0"
reads "interval":"1h30m"
reads "interval":""
unreadable "interval":"90"
unreadable "interval":"1.5m"
unreadable "interval":"500ms"
unreadable "interval":60
unreadable "initialDelay":60
reads "count":1000000
reads "count":"1000000"
unreadable "count":"x"
unreadable "count":1000001
unreadable "count":"1000001"
unreadable "count":-1
unreadable "count":1.0
reads "passAfter":2
reads "passAfter":"2"
reads "passAfter":0
reads "passAfter":null
reads "passAfter":1000000
unreadable "passAfter":1000001
unreadable "passAfter":-1
unreadable "passAfter":"+2"
unreadable "passAfter":2.0
unreadable "passAfter":true
unsupported "failureLimit":-1
unsupported "failureLimit":"-1"
unreadable "failureLimit":1000001
unreadable "inconclusiveLimit":-1
unreadable "successCondition":true
reads "failureCondition":""
unsupported "consecutiveSuccessLimit":1
unsupported "consecutiveSuccessLimit":0
unreadable "failureLimit":-1.5
reads "consecutiveSuccessLimit":null
unreadable "name":"success rate"
reads "name":"Success_rate.p99"

# The forms of durations, counts and limits: nothing is trimmed, and a sign stands in a failure
# limit below 0 alone, however long its text is.
between {"template":{"metadata":{"name":"t"},"spec":{"metrics":[{"name":"m", ... }]}}}
unreadable "interval":"1H"
unreadable "interval":"1d"
unreadable "interval":"+1m"
unreadable "interval":" 1m"
unreadable "interval":"1m "
unreadable "interval":"1h 30m"
unreadable "interval":"m"
unreadable "interval":"1m30"
reads "interval":"007m"
reads "interval":null
unreadable "count":""
unreadable "count":"+5"
unreadable "count":" 5"
unreadable "count":"-0"
reads "count":"007"
unreadable "count":1e1
unreadable "failureLimit":""
unreadable "failureLimit":"-0"
unreadable "failureLimit":-0
unreadable "failureLimit":" -1"
unreadable "failureLimit":-99999999999999999999
unsupported "failureLimit":"-99999999999999999999"
unreadable "consecutiveErrorLimit":-1

# Those of an entry of a report.
between {"report":{"service":"web","run":1,"entries":[{"metric":"m", ... }]}}
reads "ordinal":1,"taken":1767225600,"result":5
reads "ordinal":1000000000,"taken":0,"result":5
unreadable "ordinal":0,"taken":1767225600,"result":5
unreadable "ordinal":1000000001,"taken":1767225600,"result":5
unreadable "ordinal":"1","taken":1767225600,"result":5
reads "ordinal":1,"taken":253370764799,"result":5
unreadable "ordinal":1,"taken":253370764800,"result":5
unreadable "ordinal":1,"taken":-1,"result":5
unreadable "ordinal":1,"taken":1767225600
unreadable "ordinal":1,"taken":1767225600,"result":5,"failure":"no data"
unreadable "ordinal":1,"taken":1767225600,"result":5,"failure":null
unreadable "ordinal":1,"taken":1767225600,"result":5,"x":0
unreadable "ordinal":1,"result":5
unreadable "metric":"m 1","ordinal":1,"taken":1767225600,"result":5

# What an entry brings.
between {"report":{"service":"web","run":1,"entries":[{"metric":"m","ordinal":1,"taken":1767225600, ... }]}}
reads "result":5
reads "result":-5
reads "result":[1,2]
reads "result":[1,2,3,4,5,6,7,8,9,10,11,12,13,14,15,16]
unreadable "result":[1,2,3,4,5,6,7,8,9,10,11,12,13,14,15,16,17]
unreadable "result":[]
unreadable "result":[1,null]
unreadable "result":[[1]]
unreadable "result":null
unreadable "result":"5"
unreadable "result":1.0
unreadable "result":-0
reads "result":9223372036854775807
unreadable "result":9223372036854775808
reads "result":-9223372036854775808
unreadable "result":-9223372036854775809
unreadable "result":true
reads "failure":"no data"
unreadable "failure":""
unreadable "failure":null
unreadable "failure":5
reads "failure":"<<200*a>>"
unreadable "failure":"<<201*a>>"
reads "failure":"<<100*é>>"
unreadable "failure":"<<101*é>>"

# Reports, up to 32 entries.
between {"report":{"service":"web", ... }}
reads "run":1,"entries":[{"metric":"m","ordinal":1,"taken":0,"failure":"no data"}]
reads "run":1000000000,"entries":[{"metric":"m","ordinal":1,"taken":0,"failure":"no data"}]
unreadable "run":0,"entries":[{"metric":"m","ordinal":1,"taken":0,"failure":"no data"}]
unreadable "run":1000000001,"entries":[{"metric":"m","ordinal":1,"taken":0,"failure":"no data"}]
unreadable "entries":[{"metric":"m","ordinal":1,"taken":0,"failure":"no data"}]
unreadable "run":1,"entries":[]
unreadable "run":1,"entries":null
unreadable "run":1
unreadable "run":1,"entries":[{"metric":"m","ordinal":1,"taken":0,"failure":"no data"}],"x":0
reads "run":1,"entries":[{"metric":"m","ordinal":1,"taken":1767225600,"result":5}<<31*,{"metric":"m","ordinal":1,"taken":1767225600,"result":5}>>]
unreadable "run":1,"entries":[{"metric":"m","ordinal":1,"taken":1767225600,"result":5}<<32*,{"metric":"m","ordinal":1,"taken":1767225600,"result":5}>>]

# Rollouts. Arrays of a manifest lie in three objects, so 124 of them nest 127 deep.
between {"service":{"manifest":{"metadata":{"name":"web"}, ... },"version":"v1"}}
reads "spec":{"strategy":{"canary":{}}}
reads "spec":{"strategy":{"canary":{"steps":null}}}
reads "kind":"Rollout","spec":{"strategy":{"canary":{"steps":[]}}}
reads "kind":null,"spec":{"paused":null,"strategy":{"blueGreen":null,
    "canary":{"steps":[],"analysis":null}}}
reads "apiVersion":"argoproj.io/v1alpha1","spec":{"replicas":5,"paused":false,
    "strategy":{"canary":{"maxSurge":"25%"}}}
unreadable "metadata":{"name":"web-"},"spec":{"strategy":{"canary":{}}}
unreadable "metadata":null,"spec":{"strategy":{"canary":{}}}
unreadable "spec":{"strategy":{}}
unreadable "spec":{"strategy":{"canary":null}}
unreadable "spec":{"strategy":{"canary":[]}}
unreadable "spec":{"strategy":{"canary":{"steps":{}}}}
reads "spec":{"strategy":{"canary":{"analysis":{"templates":[{"templateName":"t"}]}}}}
reads "spec":{"strategy":{"canary":{"analysis":{"templates":[{"templateName":"t"}],
    "startingStep":64}}}}
unreadable "spec":{"strategy":{"canary":{"analysis":{"templates":[{"templateName":"t"}],
    "startingStep":65}}}}
unreadable "spec":{"strategy":{"canary":{"analysis":{"templates":[{"templateName":"t"}],
    "startingStep":"1"}}}}
unreadable "spec":{"strategy":{"canary":{"analysis":{}}}}
unreadable "spec":{"strategy":{"canary":{"analysis":{"templates":[{"templateName":"T"}]}}}}
reads "spec":{"strategy":{"canary":{"analysis":{"templates":[{"templateName":"t"}],"dryRun":[],
    "measurementRetention":[],"args":[{"name":"x"}]}}}}
unsupported "spec":{"strategy":{"canary":{"analysis":{"templates":[{"templateName":"t"}],
    "dryRun":[{}]}}}}
unsupported "kind":"AnalysisTemplate","spec":{"strategy":{"canary":{}}}
unsupported "kind":["Rollout"]
unsupported "spec":{"paused":true,"strategy":{"canary":{}}}
unsupported "spec":{"strategy":{"blueGreen":{}}}
unsupported "spec":{"strategy":{"blueGreen":false,"canary":{}}}
unsupported "kind":"rollout","spec":{"strategy":{"canary":{}}}
reads "spec":{"paused":"true","strategy":{"canary":{}}}
reads "spec":{"paused":1,"strategy":{"canary":{}}}
unsupported "spec":{"strategy":{"canary":{"analysis":{"dryRun":[{"metricName":"m"}]}}}}
unsupported "spec":{"strategy":{"canary":{"analysis":{"measurementRetention":{}}}}}
unsupported "spec":{"strategy":{"canary":{"analysis":{"templates":[{"templateName":"t"},
    {"clusterScope":true}]}}}}
unsupported "spec":{"strategy":{"canary":{"steps":[{"setWeight":"much"},{"setCanaryScale":{}}]}}}
reads "x":<<124*[>><<124*]>>,"spec":{"strategy":{"canary":{}}}
unreadable "x":<<125*[>><<125*]>>,"spec":{"strategy":{"canary":{}}}

# Steps.
between {"service":{"manifest":{"metadata":{"name":"web"},"spec":{"strategy":{"canary":{"steps":[ ... ]}}}},"version":"v1"}}
reads {"setWeight":0}
reads {"setWeight":101}
reads {"setWeight":1000000}
unreadable {"setWeight":1000001}
unreadable {"setWeight":-1}
unreadable {"setWeight":1.0}
unreadable {"setWeight":1e1}
unreadable {"setWeight":-0}
unreadable {"setWeight":18446744073709551636}
unreadable {"setWeight":"20"}
unreadable {"setWeight":5,"setWeight":1e9}
reads {"setWeight":20,"pause":null,"analysis":null,"experiment":null}
unreadable {"setWeight":20,"pause":{}}
unreadable {"pause":{},"analysis":{"templates":[{"templateName":"t"}]}}
reads {"analysis":{"templates":[{"templateName":"t"}],"dryRun":[],"measurementRetention":null}}
reads {"analysis":{"templates":[{"templateName":"t"},{"templateName":"u","clusterScope":false}]}}
unreadable {"analysis":{"templates":{"templateName":"t"}}}
unreadable {"analysis":{"templates":["t"]}}
unreadable {"analysis":{}}
reads {"pause":{"duration":null,"until":"noon"}}
reads {"pause":{"duration":300}}
reads {"pause":{"duration":"300"}}
reads {"pause":{"duration":"5m"}}
reads {"pause":{"duration":31536000}}
unreadable {"pause":{"duration":31536001}}
unreadable {"pause":{"duration":"5x"}}
unreadable {"pause":{"duration":""}}
unreadable {"pause":{"duration":-1}}
unreadable {"pause":{"duration":"31536001"}}
unreadable {"pause":{"duration":"8760h1s"}}
reads {"pause":{"duration":null}}
unreadable {"pause":[]}
unreadable {}
unreadable null
unreadable []
unsupported {"setCanaryScale":{"weight":20}}
unsupported {"setWeight":20,"setHeaderRoute":{}}
unsupported {"setWeight":20,"":false}
unsupported {"setWeight":20,"analysis":{"dryRun":[{}]}}
unsupported {"analysis":{"measurementRetention":[{}]}}
unsupported {"analysis":{"templates":[{"clusterScope":true}]}}
unreadable {"analysis":{"templates":[{"clusterScope":false}]}}
reads {"analysis":{"templates":[{"templateName":"t","clusterScope":"true"}]}}
unsupported {"pause":{}},{"experiment":{}}

# Pairs that are the same command. Of two members of one name the last counts.
same
{"start":{"service":"web","version":"v2"}} = { "start" : {"version":"v2", "service":"web"} }
{"start":{"service":"web","version":"v2"}}
     = {"start":{"service":"no"},"start":{"service":"web","version":"v2"}}
{"template":{"metadata":{"name":"t"},"spec":{"metrics":[{"name":"m","interval":"60s","count":2}]}}}
     = {"template":{"spec":{"metrics":[{"provider":{},"count":"2","interval":"1m","name":"m",
    "failureLimit":0}],"args":[{"name":"x"}]},"metadata":{"namespace":"shop","name":"t"}}}
{"template":{"metadata":{"name":"t"},"spec":{"metrics":[{"name":"m","interval":"2m"}]}}}
     = {"template":{"metadata":{"name":"t"},"spec":{"metrics":[{"name":"m","interval":"1m1m",
    "initialDelay":""}]}}}
{"promote":{"service":"web"}} = {"promote":{"service":"a b","service":"web"}}
{"promote":{"service":"web"}} = {"promote":{"service":"w\u0065b"}}
{"service":{"version":"v1","manifest":{"metadata":{"name":"web"},"spec":{"strategy":{"canary":{
    "steps":[{"setWeight":20},{"pause":{"duration":"5m"}},{"pause":{}},
    {"analysis":{"templates":[{"templateName":"t"}]}}]}}}}}}
     = {"service":{"manifest":{"kind":"Rollout","spec":{"paused":false,"strategy":{"canary":{
    "analysis":null,"steps":[{"setWeight":20,"pause":null},{"pause":{"duration":300}},
    {"pause":{"duration":null}},{"analysis":{"dryRun":[],"templates":[{"templateName":"t",
    "clusterScope":false}]}}]}}},"metadata":{"name":"web"}},"version":"v1"}}
{"report":{"service":"web","run":1,"entries":[{"metric":"m","ordinal":1,"taken":0,"result":[1,0]}]}}
     = {"report":{"entries":[{"result":[ 1, 0 ],"taken":0,"ordinal":1,"metric":"m"}],"run":1,
    "service":"web"}}

# What is left out, empty or null is what it stands for.
same
{"template":{"metadata":{"name":"t"},"spec":{"metrics":[{"name":"m"}]}}}
     = {"template":{"metadata":{"name":"t"},"spec":{"metrics":[{"name":"m","interval":"",
    "initialDelay":null,"count":"0","successCondition":"","failureCondition":null,
    "failureLimit":"0","inconclusiveLimit":0,"consecutiveErrorLimit":"4"}],"dryRun":null}}}
{"template":{"metadata":{"name":"t"},"spec":{"metrics":[
    {"name":"m","failureCondition":"result > 1"}]}}}
     = {"template":{"metadata":{"name":"t"},"spec":{"metrics":[{"name":"m","interval":null,
    "count":0,"successCondition":"","failureCondition":"result > 1","initialDelay":"0s"}],
    "dryRun":[]}}}
{"service":{"manifest":{"metadata":{"name":"web"},"spec":{"strategy":{"canary":{"steps":[
    {"pause":{"duration":0}},{"pause":{"duration":300}}],
    "analysis":{"templates":[{"templateName":"t"}]}}}}},"version":"v1"}}
     = {"service":{"manifest":{"metadata":{"name":"web"},"spec":{"strategy":{"canary":{"steps":[
    {"pause":{"duration":"0s"}},{"pause":{"duration":"0300"}}],
    "analysis":{"templates":[{"templateName":"t"}],"startingStep":0}}}}},"version":"v1"}}
