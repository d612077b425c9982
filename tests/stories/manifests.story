manifests 198

# Texts.
between ...
{"kind":"AnalysisTemplate","metadata":{"name":"t"},
    "spec":{"metrics":[{"name":"m"}]}} => ok
{"kind":"Rollout","metadata":{"name":"web"},"spec":{"strategy":{"canary":{}}}} => ok
{"metadata":{"name":"t"}} => kind: expected AnalysisTemplate or Rollout
{"kind":"List","items":[]} => kind: expected AnalysisTemplate or Rollout
     |     instead: take one of its items, as kubectl get analysistemplate NAME -o json or
     kubectl get rollout NAME -o json prints it
{"kind":"RolloutList","items":[]} => kind: expected AnalysisTemplate or Rollout
     |     instead: take one of its items, as kubectl get analysistemplate NAME -o json or
     kubectl get rollout NAME -o json prints it
{"kind":"AnalysisTemplateList","items":[]} => kind: expected AnalysisTemplate or Rollout
     |     instead: take one of its items, as kubectl get analysistemplate NAME -o json or
     kubectl get rollout NAME -o json prints it
{"kind":"ClusterAnalysisTemplate","metadata":{"name":"t"}} =>
     kind: expected AnalysisTemplate or Rollout
     |     instead: write AnalysisTemplate for ClusterAnalysisTemplate:
     the desk has templates of one kind
{"kind":"AnalysisRun"} => kind: expected AnalysisTemplate or Rollout
{"promote":{"service":"web"}} => kind: expected AnalysisTemplate or Rollout
     |     instead: check the body of a request by canary check --request FILE
{"kind":null} => kind: expected AnalysisTemplate or Rollout
{"metadata":{"name":"t"},"spec":{"metrics":[{"name":"m"}]}} => ok
{"metadata":{"name":"web"},"spec":{"strategy":{"canary":{}}}} => ok
{"kind":null,"metadata":{"name":"t"},"spec":{"metrics":[{"name":"m"}],"strategy":null}} => ok
{"metadata":{"name":"T"},"spec":{"metrics":[]}} =>
     metadata.name: expected 1 to 63 bytes of a-z 0-9 -, the first and the last no - |
     spec.metrics: expected a list of 1 to 32 metrics
{"spec":{"strategy":{"canary":{"steps":[{"setWeight":101}]}}}} =>
     metadata.name: missing; expected 1 to 63 bytes of a-z 0-9 -, the first and the last no - |
     spec.strategy.canary.steps[0].setWeight: expected a whole number, 0 to 100
{"metadata":{"name":"t"},"spec":{"metrics":[{"name":"m"}],"strategy":{"canary":{}}}} =>
     kind: expected AnalysisTemplate or Rollout
     |     instead: write its kind: metrics are an AnalysisTemplate's, a strategy is a Rollout's
{"kind":"Deployment","metadata":{"name":"web"},"spec":{"strategy":{"canary":{}}}} =>
     kind: expected AnalysisTemplate or Rollout
{"metadata":{"name":"t"},"spec":{"metrics":null}} => kind: expected AnalysisTemplate or Rollout
[{"kind":"Rollout"}] => kind: expected AnalysisTemplate or Rollout
{"kind":} => near line 1, column 9: expected JSON in UTF-8,
     with arrays and objects nested at most 127 deep
 => near line 1, column 0: expected JSON in UTF-8,
     with arrays and objects nested at most 127 deep
{"kind":"AnalysisTemplate"} => metadata.name: missing; expected 1 to 63 bytes of a-z 0-9 -,
     the first and the last no - | spec.metrics: expected a list of 1 to 32 metrics
{"kind":"Rollout","metadata":{"name":null},"spec":{"strategy":{"canary":{}}}} =>
     metadata.name: missing; expected 1 to 63 bytes of a-z 0-9 -, the first and the last no -
{"kind":"Rollout","metadata":{"name":""},"spec":{"strategy":{"canary":{}}}} =>
     metadata.name: expected 1 to 63 bytes of a-z 0-9 -, the first and the last no -
{"kind":"Rollout","metadata":{"name":"Web"},"spec":{"strategy":{"canary":[]}}} =>
     metadata.name: expected 1 to 63 bytes of a-z 0-9 -, the first and the last no - |
     spec.strategy.canary: expected an object

# Templates.
between {"kind":"AnalysisTemplate","metadata":{"name":"t"},"spec":{ ... }}
"metrics":[] => spec.metrics: expected a list of 1 to 32 metrics
"metrics":{"name":"m"} => spec.metrics: expected a list of 1 to 32 metrics
"metrics":[{"name":"a"},{"name":"b"},{"name":"a"}] => spec.metrics[2].name (metric "a"):
     expected a name that no metric before it has
"metrics":[{"name":"m"}],"dryRun":[{"metricName":"m"},{"metricName":".*"}] => ok
"metrics":[{"name":"m"}],"dryRun":[{"metricName":".*"},{"metricName":"n"},{}] =>
     spec.dryRun[1].metricName: expected the name of a metric of the template, or .* for all |
     spec.dryRun[2].metricName: expected the name of a metric of the template, or .* for all
"metrics":[{"name":"m"}],"dryRun":"m" => spec.dryRun: expected a list of objects with metricName
"metrics":[{"name":"m"}],"templates":[{"templateName":"a"}],"measurementRetention":[] =>
     spec.templates: expected none or an empty list (others are unsupported)
     |     instead: name each template in the analysis of the Rollout
"metrics":[{"name":"m"}],"measurementRetention":{} =>
     spec.measurementRetention: expected none or an empty list (others are unsupported)
     |     instead: leave it out: the desk keeps every measurement
"metrics":[{"name":"m","interval":60},5] => spec.metrics[0].interval (metric "m"):
     expected a duration in a text, as 90s or 1h30m, up to 8760h
     |     instead: write "60s" |
     spec.metrics[1].name: missing; expected 1 to 63 bytes of A-Z a-z 0-9 . _ -
"metrics":[{"name":"m","interval":"60"},{"name":"n","interval":"6x"}] =>
     spec.metrics[0].interval (metric "m"): expected a duration in a text, as 90s or 1h30m, up to
     8760h |     instead: write "60s" | spec.metrics[1].interval (metric "n"): expected a duration
     in a text, as 90s or 1h30m, up to 8760h

# Metrics.
between {"kind":"AnalysisTemplate","metadata":{"name":"t"},"spec":{"metrics":[{"name":"errors", ... }]}}
"count":5,"interval":"1m","failureLimit":"1","successCondition":"" => ok
"name":"errors in a row" => spec.metrics[0].name: expected 1 to 63 bytes of A-Z a-z 0-9 . _ -
"name":null => spec.metrics[0].name: missing; expected 1 to 63 bytes of A-Z a-z 0-9 . _ -
"successCondition":"result < 0.95" => spec.metrics[0].successCondition (metric "errors"), byte 10:
     expected result, a whole number, a bracket, a comparison, &&, || or !
     |     result < 0.95
     |               ^
     |     instead: report hundredths, and write 95 for 0.95
"successCondition":"result[0] >= 0.95","failureCondition":"result[0] < 0.9" =>
     spec.metrics[0].successCondition (metric "errors"), byte 14:
     expected result, a whole number, a bracket, a comparison, &&, || or !
     |     result[0] >= 0.95
     |                   ^
     |     instead: report hundredths, and write 95 for 0.95,
     and other numbers for that result in hundredths |
     spec.metrics[0].failureCondition (metric "errors"), byte 13:
     expected result, a whole number, a bracket, a comparison, &&, || or !
     |     result[0] < 0.9
     |                  ^
     |     instead: report hundredths, and write 90 for 0.9,
     and other numbers for that result in hundredths
"successCondition":"result >= 99.5","failureCondition":"result < 90" =>
     spec.metrics[0].successCondition (metric "errors"), byte 12:
     expected result, a whole number, a bracket, a comparison, &&, || or !
     |     result >= 99.5
     |                 ^
     |     instead: report tenths, and write 995 for 99.5,
     and other numbers for that result in tenths
"failureCondition":"result <" => spec.metrics[0].failureCondition (metric "errors"), byte 8:
     expected result or a whole number
     |     result <
     |             ^
"failureCondition":"result" => spec.metrics[0].failureCondition (metric "errors"), byte 6:
     expected [, ==, !=, <, <=, > or >=
     |     result
     |           ^
     |     instead: report 1 for true and 0 for false, and write result == 1 for result
"failureCondition":"(result > 1" => spec.metrics[0].failureCondition (metric "errors"), byte 11:
     expected &&, || or )
     |     (result > 1
     |                ^
"successCondition":"result > 9223372036854775808" => spec.metrics[0].successCondition
     (metric "errors"), byte 9: expected a signed number of 64 bits
     |     result > 9223372036854775808
     |              ^
     |     instead: report in a larger unit, in which the number is smaller
"successCondition":"result > 1 && result\u00a0\t< 50 && result >= 10 && result <= 20 || result == 30",
    "failureCondition":"" => spec.metrics[0].successCondition (metric "errors"), byte 20:
     expected result, a whole number, a bracket, a comparison, &&, || or !
     |     result > 1 && result???< 50 && result >= 10 && result <= 20 ...
     |                         ^
"successCondition":"result >= 10 && result <= 20 || \u00a0result == 30 || result == 40",
    "failureCondition":"" => spec.metrics[0].successCondition (metric "errors"), byte 32:
     expected result, a whole number, a bracket, a comparison, &&, || or !
     |     ...sult >= 10 && result <= 20 || ??result == 30 || result == 40
     |                                      ^
"successCondition":95 => spec.metrics[0].successCondition (metric "errors"):
     expected a condition in a text
"initialDelay":"1.5m" => spec.metrics[0].initialDelay (metric "errors"):
     expected a duration in a text, as 90s or 1h30m, up to 8760h
"initialDelay":31536000 => spec.metrics[0].initialDelay (metric "errors"):
     expected a duration in a text, as 90s or 1h30m, up to 8760h
     |     instead: write "31536000s"
"initialDelay":31536001 => spec.metrics[0].initialDelay (metric "errors"):
     expected a duration in a text, as 90s or 1h30m, up to 8760h
"initialDelay":1.5 => spec.metrics[0].initialDelay (metric "errors"):
     expected a duration in a text, as 90s or 1h30m, up to 8760h
"initialDelay":-60 => spec.metrics[0].initialDelay (metric "errors"):
     expected a duration in a text, as 90s or 1h30m, up to 8760h
"count":1000001 => spec.metrics[0].count (metric "errors"):
     expected 0 to 1,000,000, a whole number or a text of digits
"passAfter":1000001 => spec.metrics[0].passAfter (metric "errors"):
     expected 0 to 1,000,000, a whole number or a text of digits
"interval":"1m","passAfter":2 => ok
"count":2 => spec.metrics[0].interval (metric "errors"):
     expected an interval, since the count is above 1
"count":2,"passAfter":2 => spec.metrics[0].interval (metric "errors"):
     expected an interval, since the count is above 1
"failureLimit":-1 => spec.metrics[0].failureLimit (metric "errors"):
     expected no limit below 0 (unsupported)
"inconclusiveLimit":-1,"consecutiveErrorLimit":1.5,"consecutiveSuccessLimit":1 =>
     spec.metrics[0].inconclusiveLimit (metric "errors"):
     expected 0 to 1,000,000, a whole number or a text of digits |
     spec.metrics[0].consecutiveErrorLimit (metric "errors"):
     expected 0 to 1,000,000, a whole number or a text of digits |
     spec.metrics[0].consecutiveSuccessLimit (metric "errors"):
     expected no such limit (unsupported)

# Rollouts. Arrays of the last two lie 125 and 126 deep.
between {"kind":"Rollout","metadata":{"name":"web"},"spec":{ ... }}
"paused":true,"strategy":{"blueGreen":{}} =>
     spec.paused: expected false or none (true is unsupported) |
     spec.strategy.blueGreen: expected no such member (unsupported) |
     spec.strategy.canary: expected an object
"strategy":{"canary":{"steps":5}} =>
     spec.strategy.canary.steps: expected a list of at most 64 steps
"strategy":{"canary":{"analysis":{"templates":[{"templateName":"a"}],"startingStep":65}}} =>
     spec.strategy.canary.analysis.startingStep: expected a whole number, 0 to 64
"strategy":{"canary":{"analysis":{"templates":[{"templateName":"a"},{"templateName":"a"}]}}} =>
     spec.strategy.canary.analysis.templates: expected each template once
"strategy":{"canary":{"analysis":{"dryRun":[{}],"templates":[{"templateName":"A"},
    {"templateName":"b","clusterScope":true}]}}} =>
     spec.strategy.canary.analysis.dryRun: expected none or an empty list (others are unsupported)
     |     instead: write dryRun in the spec of the AnalysisTemplate |
     spec.strategy.canary.analysis.templates[0].templateName: expected 1 to 63 bytes of a-z 0-9 -,
     the first and the last no - |
     spec.strategy.canary.analysis.templates[1].clusterScope:
     expected false or none (true is unsupported)
"strategy":{"canary":{"analysis":{"templates":[{"templateName":null},{}]}}} =>
     spec.strategy.canary.analysis.templates[0].templateName: missing;
     expected 1 to 63 bytes of a-z 0-9 -, the first and the last no - |
     spec.strategy.canary.analysis.templates[1].templateName: missing;
     expected 1 to 63 bytes of a-z 0-9 -, the first and the last no -
"strategy":{"canary":{"analysis":{"measurementRetention":[{"metricName":"m","limit":5}],
    "templates":[{"templateName":"a"}]}}} => spec.strategy.canary.analysis.measurementRetention:
     expected none or an empty list (others are unsupported)
     |     instead: leave it out: the desk keeps every measurement
"strategy":{"canary":{"analysis":{}}} =>
     spec.strategy.canary.analysis.templates: expected a list of 1 to 8 objects with templateName
"strategy":{"canary":{}},"x":<<123*[>><<123*]>> => ok
"strategy":{"canary":{}},"x":<<124*[>><<124*]>> =>
     manifest: expected arrays and objects nested at most 125 deep in a Rollout,
     and 126 deep in an AnalysisTemplate

# Steps, up to 64.
between {"kind":"Rollout","metadata":{"name":"web"},"spec":{"strategy":{"canary":{"steps":[ ... ]}}}}
{"setWeight":100},{"pause":{}},{"pause":{"duration":"300"}} => ok
{"analysis":{"templates":[{"templateName":"never-registered"}]}} => ok
{"setWeight":101} => spec.strategy.canary.steps[0].setWeight: expected a whole number, 0 to 100
{"pause":{}},{"setWeight":"20"} =>
     spec.strategy.canary.steps[1].setWeight: expected a whole number, 0 to 100
{"pause":{"duration":"1.5m"}} => spec.strategy.canary.steps[0].pause.duration:
     expected 90s or 1h30m, or seconds as a number or a text of digits, 31,536,000 at most
{"pause":5} => spec.strategy.canary.steps[0].pause:
     expected an object, with or without a duration
{"pause":null},{"setWeight":1,"pause":{}} => spec.strategy.canary.steps[0]:
     expected exactly one of setWeight, pause and analysis
     |     instead: write {"pause":{}} |
     spec.strategy.canary.steps[1]: expected exactly one of setWeight, pause and analysis
{"setWeight":null},{},5,{"pause":null,"setWeight":1,
    "analysis":{"templates":[{"templateName":"a"}]}} =>
     spec.strategy.canary.steps[0]: expected exactly one of setWeight, pause and analysis |
     spec.strategy.canary.steps[1]: expected exactly one of setWeight, pause and analysis |
     spec.strategy.canary.steps[2]: expected exactly one of setWeight, pause and analysis |
     spec.strategy.canary.steps[3]: expected exactly one of setWeight, pause and analysis
{"pause":null,"setWeight":1} => ok
{"experiment":{}} => spec.strategy.canary.steps[0].experiment:
     expected no member but setWeight, pause or analysis (others are unsupported)
     |     instead: leave the step out, or write an analysis
{"setCanaryScale":{"weight":5}} => spec.strategy.canary.steps[0].setCanaryScale:
     expected no member but setWeight, pause or analysis (others are unsupported)
     |     instead: leave the step out: the desk scales no pods
{"setHeaderRoute":{}},{"setMirrorRoute":{}} => spec.strategy.canary.steps[0].setHeaderRoute:
     expected no member but setWeight, pause or analysis (others are unsupported)
     |     instead: leave the step out: the desk routes no requests |
     spec.strategy.canary.steps[1].setMirrorRoute:
     expected no member but setWeight, pause or analysis (others are unsupported)
     |     instead: leave the step out: the desk routes no requests
{"plugin":{}} => spec.strategy.canary.steps[0].plugin:
     expected no member but setWeight, pause or analysis (others are unsupported)
     |     instead: leave the step out
{"a\nb":{}} => spec.strategy.canary.steps[0]:
     expected no member but setWeight, pause or analysis (others are unsupported)
     |     instead: correct its name, or leave the step out
{"setWieght":20},{"setWieght":20,"pause":null} => spec.strategy.canary.steps[0].setWieght:
     expected no member but setWeight, pause or analysis (others are unsupported)
     |     instead: correct its name, or leave the step out |
     spec.strategy.canary.steps[1].setWieght:
     expected no member but setWeight, pause or analysis (others are unsupported)
     |     instead: correct its name, or leave the step out
{"setweight":5} => spec.strategy.canary.steps[0].setweight:
     expected no member but setWeight, pause or analysis (others are unsupported)
     |     instead: write setWeight
{"setWeight":5,"plugin":{}} => spec.strategy.canary.steps[0].plugin:
     expected no member but setWeight, pause or analysis (others are unsupported)
     |     instead: leave the member out
{"experiment":{},"plugin":{}} => spec.strategy.canary.steps[0].experiment:
     expected no member but setWeight, pause or analysis (others are unsupported)
     |     instead: leave the step out, or write an analysis |
     spec.strategy.canary.steps[0].plugin:
     expected no member but setWeight, pause or analysis (others are unsupported)
     |     instead: leave the step out
{"analysis":{"templates":[]}} => spec.strategy.canary.steps[0].analysis.templates:
     expected a list of 1 to 8 objects with templateName
{"analysis":{}} => spec.strategy.canary.steps[0].analysis.templates:
     expected a list of 1 to 8 objects with templateName
{"analysis":{"templates":[{"templateName":"a"},{"templateName":"a"}]}} =>
     spec.strategy.canary.steps[0].analysis.templates: expected each template once
{"analysis":{"templates":[<<8*{"templateName":"a"},>>{"templateName":"a"}]}} =>
     spec.strategy.canary.steps[0].analysis.templates:
     expected a list of 1 to 8 objects with templateName
<<64*{"pause":{}},>>{"pause":{}} => spec.strategy.canary.steps: expected a list of at most 64 steps

# 33 metrics, and 32.
begins {"kind":"AnalysisTemplate","metadata":{"name":"t"},"spec":{"metrics":[ ... ]}}
<<32*{"name":"m"},>>{"name":"m"} => spec.metrics: expected a list of 1 to 32 metrics
     | spec.metrics[1].name
<<31*{"name":"m"},>>{"name":"m"} => spec.metrics[1].name

# A text that is no JSON, though the body that registers it would be a command's. Its JSON ends
# before column 86; the reader may stand some bytes after that.
begins
{"kind":"AnalysisTemplate","metadata":{"name":"t"},"spec":{"metrics":[{"name":"m"}]}},
    "template":{"metadata":{"name":"t"},"spec":{"metrics":[{"name":"m"}]}} => near line 1, column 8

# Texts in YAML, which are read as kubectl reads them, each document in turn, also with a byte order
# mark; what a brace begins is JSON.
between ...
apiVersion: argoproj.io/v1alpha1 => kind: expected AnalysisTemplate or Rollout
<<x:0a>>kind: Rollout => metadata.name: missing;
     expected 1 to 63 bytes of a-z 0-9 -, the first and the last no -
     | spec.strategy.canary: expected an object
<<x:efbbbf>>{"kind":"Rollout"} => near line 1, column 1: expected JSON in UTF-8,
     with arrays and objects nested at most 127 deep
     |     instead: save the file in UTF-8 without a byte order mark
<<x:efbbbf>>kind: Rollout => metadata.name: missing;
     expected 1 to 63 bytes of a-z 0-9 -, the first and the last no -
     | spec.strategy.canary: expected an object
---<<x:0a>>kind: Rollout => metadata.name: missing;
     expected 1 to 63 bytes of a-z 0-9 -, the first and the last no -
     | spec.strategy.canary: expected an object
<<x:23>> Two<<x:0a0a>>---<<x:0a>>kind: Rollout<<x:0a>>---<<x:0a>> => metadata.name: missing;
     expected 1 to 63 bytes of a-z 0-9 -, the first and the last no -
     | spec.strategy.canary: expected an object
kind: Rollout<<x:0a>>---<<x:0a>>kind: Service =>
     document of line 1: metadata.name: missing;
     expected 1 to 63 bytes of a-z 0-9 -, the first and the last no -
     | document of line 1: spec.strategy.canary: expected an object
     | document of line 2: kind: expected AnalysisTemplate or Rollout
---<<x:0a>>kind: Rollout<<x:0a>>---<<x:0a>>kind: Rollout<<x:0a>> =>
     document of line 1: metadata.name: missing;
     expected 1 to 63 bytes of a-z 0-9 -, the first and the last no -
     | document of line 1: spec.strategy.canary: expected an object
     | document of line 3: metadata.name: missing;
     expected 1 to 63 bytes of a-z 0-9 -, the first and the last no -
     | document of line 3: spec.strategy.canary: expected an object
kind: ClusterAnalysisTemplate<<x:0a>>---<<x:0a>>kind: Service =>
     document of line 1: kind: expected AnalysisTemplate or Rollout
     |     instead: write AnalysisTemplate for ClusterAnalysisTemplate:
     the desk has templates of one kind
     | document of line 2: kind: expected AnalysisTemplate or Rollout
kind: Rollout<<x:0a>>spec:<<x:0a09>>a: b => line 3, column 1:
     a tab in an indentation: write spaces
kind: Rollout<<x:0a>>a: [on] => line 2, column 5: YAML 1.1 reads true here:
     write true, or put it in quotes
mode: 0644 => line 1, column 7: kubectl reads 420: write that, or put it in quotes

ends ...
{"kind":"Rollout"}<<x:0a>>{"kind":"Rollout"} =>  |     instead: check one document at a time:
     each manifest is a file of its own
{<<x:0a>>}<<x:0a>>---<<x:0a>>{<<x:0a>>} =>  |     instead: check one document at a time:
     each manifest is a file of its own
{<<x:0a>>  {<<x:0a>>} => with arrays and objects nested at most 127 deep
<<x:fffe>>{<<x:00>> =>  |     instead: save the file in UTF-8 without a byte order mark
{"kind":"Rollout"}} => with arrays and objects nested at most 127 deep

# More than 100 findings: those beyond are counted. Of 101 the last is counted.
ends {"kind":"Rollout","metadata":{"name":"web"},"spec":{"strategy":{"canary":{"steps":[ ... ]}}}}
<<101*{"pause":5},>>{"pause":5} =>  | spec.strategy.canary.steps[98].pause:
     expected an object, with or without a duration | and 3 more
<<99*{"pause":5},>>{"pause":5} =>  | spec.strategy.canary.steps[98].pause:
     expected an object, with or without a duration | and 1 more
<<98*{"pause":5},>>{"pause":5} =>  | spec.strategy.canary.steps[97].pause:
     expected an object, with or without a duration | spec.strategy.canary.steps[98].pause:
     expected an object, with or without a duration

# What is reported after a finding is not reported after one that is only counted.
ends {"kind":"Rollout","metadata":{"name":"web"},"spec":{"strategy":{"canary":{"steps":[ ... ]}}}}
<<99*{"pause":5},>>{"plugin":5} =>  | spec.strategy.canary.steps[98].pause:
     expected an object, with or without a duration | and 1 more
<<98*{"pause":5},>>{"plugin":5} =>  | spec.strategy.canary.steps[98].plugin:
     expected no member but setWeight, pause or analysis (others are unsupported)
     |     instead: leave the step out

# So is the text of a condition.
ends {"kind":"AnalysisTemplate","metadata":{"name":"t"},"spec":{"metrics":[ ... ]}}
<<99*5,>>{"name":"m","successCondition":"x"} =>  | spec.metrics[98].name: missing;
     expected 1 to 63 bytes of A-Z a-z 0-9 . _ - | and 1 more

# Warnings, of manifests that are taken.
warns {"kind":"AnalysisTemplate","metadata":{"name":"t"},"spec":{"metrics":[ ... ]}}
{"name":"m"} => canary: warning: spec.metrics[0] (metric "m"): no condition,
     so each result is Successful
{"name":"a","failureCondition":"result > 5"},{"name":"b","successCondition":"","provider":{}} =>
     canary: warning: spec.metrics[1] (metric "b"): no condition, so each result is Successful
{"name":"a","successCondition":"result > 5"} => nothing
{"name":"m","successCondition":"result > 5","x":"<<65536*x>>"} => canary: warning: manifest:
     65660 bytes, and the body of a request has at most 65,536
{"name":"m","successCondition":"result > 5","x":"<<65412*x>>"} => nothing
{"name":"m","successCondition":"result > 5","x":"<<65413*x>>"} => canary: warning: manifest:
     65537 bytes, and the body of a request has at most 65,536

# Rollouts that time alone brings to 100 percent, and others.
warns {"kind":"Rollout","metadata":{"name":"web"},"spec":{"strategy":{"canary":{"steps":[ ... ]}}}}
{"setWeight":20},{"pause":{"duration":"1h"}},{"setWeight":40},{"pause":{"duration":10}},
    {"setWeight":60},{"pause":{"duration":10}},{"setWeight":80},{"pause":{"duration":10}} =>
     canary: warning: spec.strategy.canary.steps: no step after weight 20 waits for anybody:
     a version reaches 100 % even if nothing is measured:
     put an analysis step, or pause: {}, before setWeight 40
{"setWeight":20},{"pause":{}},{"setWeight":40},{"pause":{"duration":10}} => nothing
{"setWeight":20},{"pause":{"duration":10}},{"setWeight":40},
    {"analysis":{"templates":[{"templateName":"a"}]}} => nothing
{"setWeight":20},{"pause":{"duration":10}},{"setWeight":99},{"pause":{}},{"setWeight":100} =>
     nothing
{"pause":{}},{"setWeight":0},{"pause":{}},{"setWeight":1},{"pause":{"duration":"1s"}} =>
     canary: warning: spec.strategy.canary.steps: no step after weight 1 waits for anybody:
     a version reaches 100 % even if nothing is measured:
     put an analysis step, or pause: {}, at the end
{"setWeight":20},{"pause":{"duration":0}},{"setWeight":100},{"pause":{}} =>
     canary: warning: spec.strategy.canary.steps: no step between weight 20 and weight 100 waits for
     anybody:
     a version reaches 100 % even if nothing is measured:
     put an analysis step, or pause: {}, before setWeight 100
{"pause":{}},{"setWeight":100},{"pause":{}} =>
     canary: warning: spec.strategy.canary.steps: no step between a weight above 0 and weight
     100 waits for anybody:
     a version reaches 100 % even if nothing is measured:
     put a smaller setWeight, and an analysis step, or pause: {}, before setWeight 100
 => canary: warning: spec.strategy.canary.steps: no step waits for anybody:
     a version reaches 100 % even if nothing is measured:
     put a setWeight, and an analysis step, or pause: {}, after it
{"setWeight":0},{"pause":{"duration":"1h"}} =>
     canary: warning: spec.strategy.canary.steps: no step waits for anybody:
     a version reaches 100 % even if nothing is measured:
     put a setWeight, and an analysis step, or pause: {}, after it
{"analysis":{"templates":[{"templateName":"a"}]}} => nothing
{"setWeight":0},{"pause":{}} => nothing

# Two weights in a row.
warns {"kind":"Rollout","metadata":{"name":"web"},"spec":{"strategy":{"canary":{"steps":[ ... ]}}}}
{"setWeight":20},{"setWeight":40},{"pause":{}},{"setWeight":60},{"setWeight":60} =>
     canary: warning: spec.strategy.canary.steps[1]: a setWeight directly after another:
     no time passes at weight 20:
     put a pause or an analysis step between them, or leave the first out
     | canary: warning: spec.strategy.canary.steps[4]: a setWeight directly after another:
     no time passes at weight 60:
     put a pause or an analysis step between them, or leave the first out
{"setWeight":20},{"setWeight":40} =>
     canary: warning: spec.strategy.canary.steps[1]: a setWeight directly after another:
     no time passes at weight 20:
     put a pause or an analysis step between them, or leave the first out
     | canary: warning: spec.strategy.canary.steps: no step after weight 20 waits for anybody:
     a version reaches 100 % even if nothing is measured:
     put an analysis step, or pause: {}, before setWeight 40

# A background analysis is no step that waits. The first steps are those of Argo's documents on it.
warns {"kind":"Rollout","metadata":{"name":"web"},"spec":{"strategy":{"canary":{"analysis":{
    "templates":[{"templateName":"errors"}]},"steps":[ ... ]}}}}
{"setWeight":20},{"pause":{"duration":"10m"}},{"setWeight":40},{"pause":{"duration":"10m"}},
    {"setWeight":60},{"pause":{"duration":"10m"}},{"setWeight":80},{"pause":{"duration":"10m"}} =>
     canary: warning: spec.strategy.canary.steps: no step after weight 20 waits for anybody:
     a version reaches 100 % even if nothing is measured:
     put an analysis step, or pause: {}, before setWeight 40
{"setWeight":20},{"pause":{"duration":"5m"}} =>
     canary: warning: spec.strategy.canary.steps: no step after weight 20 waits for anybody:
     a version reaches 100 % even if nothing is measured:
     put an analysis step, or pause: {}, at the end
{"setWeight":20},{"pause":{}} => nothing

# Members that mean something in Argo, and nothing here.
warns {"kind":"Rollout","metadata":{"name":"web"},"spec":{ ... ,
    "strategy":{"canary":{"steps":[{"pause":{}}]}}}}
"minReadySeconds":30 => canary: warning: spec.minReadySeconds:
     the desk ignores it, and waits for no pods:
     put a pause before the first analysis, or start once the pods are ready
"progressDeadlineSeconds":600,"progressDeadlineAbort":true =>
     canary: warning: spec.progressDeadlineSeconds: the desk ignores it, and has no deadline:
     have a job look for late measurements, and abort
     | canary: warning: spec.progressDeadlineAbort: the desk ignores it, and no deadline aborts:
     have a job look for late measurements, and abort
"rollbackWindow":{"revisions":3} => canary: warning: spec.rollbackWindow:
     the desk ignores it, and skips no step:
     to go back, start the old version, and promote it in full
"minReadySeconds":0,"progressDeadlineSeconds":null,"progressDeadlineAbort":false,"replicas":5,
    "revisionHistoryLimit":3,"restartAt":"x","workloadRef":{},"selector":{},"template":{},
    "analysis":{"successfulRunHistoryLimit":10} => nothing

warns {"kind":"Rollout","metadata":{"name":"web"},"spec":{"strategy":{"canary":{ ... ,
    "steps":[{"pause":{}}]}}}}
"trafficRouting":{"maxTrafficWeight":1000} =>
     canary: warning: spec.strategy.canary.trafficRouting.maxTrafficWeight:
     the desk ignores it, and weights are percent: write each setWeight as a part of 100
"abortScaleDownDelaySeconds":0 => canary: warning: spec.strategy.canary.abortScaleDownDelaySeconds:
     the desk ignores it, and scales no pods:
     keep those of the new version so long after an abort
"scaleDownDelaySeconds":600 => canary: warning: spec.strategy.canary.scaleDownDelaySeconds:
     the desk ignores it, and scales no pods:
     keep those of the old version so long after a release
"dynamicStableScale":true => canary: warning: spec.strategy.canary.dynamicStableScale:
     the desk ignores it, and an abort sets weight 0 at once:
     keep the pods of the stable version until a release is done
"trafficRouting":{"maxTrafficWeight":100,"nginx":{"stableIngress":"x"}},"scaleDownDelaySeconds":0,
    "dynamicStableScale":false,"canaryService":"a","stableService":"b","canaryMetadata":{},
    "stableMetadata":{},"maxSurge":"25%","maxUnavailable":0,"scaleDownDelayRevisionLimit":2,
    "pingPong":{},"antiAffinity":{},"minPodsPerReplicaSet":2 => nothing

# With --strict each warning is a finding, after the others.
strict ...
{"metadata":{"name":"web"},"spec":{"strategy":{"canary":{"steps":[{"setWeight":20},
    {"pause":{}}]}}}} => ok
{"metadata":{"name":"web"},"spec":{"rollbackWindow":{},"strategy":{"canary":{"steps":[
    {"setWeight":20},{"pause":{"duration":"5m"}}]}}}} => spec.rollbackWindow:
     the desk ignores it, and skips no step:
     to go back, start the old version, and promote it in full |
     spec.strategy.canary.steps: no step after weight 20 waits for anybody:
     a version reaches 100 % even if nothing is measured:
     put an analysis step, or pause: {}, at the end
{"metadata":{"name":"web"},"spec":{"rollbackWindow":{},"strategy":{"canary":{"steps":5}}}} =>
     spec.strategy.canary.steps: expected a list of at most 64 steps |
     spec.rollbackWindow: the desk ignores it, and skips no step:
     to go back, start the old version, and promote it in full
{"metadata":{"name":"t"},"spec":{"metrics":[{"name":"m"}]}} =>
     spec.metrics[0] (metric "m"): no condition, so each result is Successful
{"metadata":{"name":"t"},"spec":{"metrics":[{"name":"m","failureCondition":5}]}} =>
     spec.metrics[0].failureCondition (metric "m"): expected a condition in a text
metadata: {name: t}<<x:0a>>spec: {metrics: [{name: m}]}<<x:0a>>---<<x:0a>>metadata: {name: u}
    <<x:0a>>spec: {metrics: [{name: m}]} =>
     document of line 1: spec.metrics[0] (metric "m"): no condition, so each result is Successful
     | document of line 3: spec.metrics[0] (metric "m"): no condition, so each result is Successful

# The body of a request has the same warnings.
warns-request ...
{"service":{"version":"v1","manifest":{"metadata":{"name":"web"},"spec":{"rollbackWindow":{},
    "strategy":{"canary":{"steps":[{"setWeight":20},{"setWeight":30}]}}}}}} =>
     canary: warning: service.manifest.spec.rollbackWindow: the desk ignores it,
     and skips no step: to go back, start the old version, and promote it in full
     | canary: warning: service.manifest.spec.strategy.canary.steps[1]:
     a setWeight directly after another: no time passes at weight 20:
     put a pause or an analysis step between them, or leave the first out
     | canary: warning: service.manifest.spec.strategy.canary.steps: no step after weight 20 waits
     for anybody: a version reaches 100 % even if nothing is measured:
     put an analysis step, or pause: {}, before setWeight 30
{"template":{"metadata":{"name":"t"},"spec":{"metrics":[{"name":"m"}]}}} =>
     canary: warning: template.spec.metrics[0] (metric "m"): no condition,
     so each result is Successful
{"promote":{"service":"web"}} => nothing

# Bodies of requests.
request ...
{"promote":{"service":"web"}} => ok
{"promoteFull":{"service":"web"}} => ok
{"abort":{"service":"web"}} => ok
{"retry":{"service":"web"}} => ok
{"tick":{"service":"web"}} => ok
{"start":{"service":"web","version":"v2"}} => ok
{"template":{"metadata":{"name":"t"},"spec":{"metrics":[{"name":"m"}]}}} => ok
{"service":{"version":"v1","manifest":{"metadata":{"name":"web"},
    "spec":{"strategy":{"canary":{}}}}}} => ok
{"report":{"service":"web","run":1000000000,"entries":[{"metric":"a","ordinal":1,"taken":0,
    "result":[-1,2]},{"metric":"b","ordinal":1000000000,"taken":253370764799,"failure":"x"}]}} => ok
[] => body: expected an object with exactly one member, whose key is the command
{"promote":{"service":"web"},"tick":{"service":"web"}} =>
     body: expected an object with exactly one member, whose key is the command
{"kind":"Rollout","metadata":{"name":"web"}} =>
     body: expected an object with exactly one member, whose key is the command
     |     instead: write {"template":MANIFEST},
     or {"service":{"version":"v1","manifest":MANIFEST}}
{"Promote":{"service":"web"}} => Promote: expected template, service, start, promote, promoteFull,
     abort, retry, tick or report
{"a b":{}} => body: expected template, service, start, promote, promoteFull,
     abort, retry, tick or report
{"promote":} => near line 1, column 12: expected JSON in UTF-8,
     with arrays and objects nested at most 127 deep
{"promote":{"service":"Web"}} =>
     promote.service: expected 1 to 63 bytes of a-z 0-9 -, the first and the last no -
{"tick":5} => tick.service: missing;
     expected 1 to 63 bytes of a-z 0-9 -, the first and the last no -
{"abort":{"service":null}} => abort.service: missing;
     expected 1 to 63 bytes of a-z 0-9 -, the first and the last no -
{"retry":{"service":"web","version":null}} => retry.version: expected no member but service
{"start":{"service":"web"}} => start.version: missing; expected 1 to 63 bytes of A-Z a-z 0-9 . _ -
{"start":{"version":"v 2","run":1}} => start.run: expected no member but service and version |
     start.service: missing; expected 1 to 63 bytes of a-z 0-9 -, the first and the last no - |
     start.version: expected 1 to 63 bytes of A-Z a-z 0-9 . _ -
{"template":{"kind":"ClusterAnalysisTemplate","metadata":{"name":"t"},
    "spec":{"metrics":[{"name":"m","successCondition":"result > 0.5"}]}}} =>
     template.kind: expected AnalysisTemplate
     |     instead: write AnalysisTemplate for ClusterAnalysisTemplate:
     the desk has templates of one kind |
     template.spec.metrics[0].successCondition (metric "m"), byte 10:
     expected result, a whole number, a bracket, a comparison, &&, || or !
     |     result > 0.5
     |               ^
     |     instead: report tenths, and write 5 for 0.5
{"service":{"manifest":{"kind":"AnalysisTemplate","spec":{"strategy":{"canary":{"steps":[
    {"setWeight":101}]}}}}}} =>
     service.version: missing; expected 1 to 63 bytes of A-Z a-z 0-9 . _ - |
     service.manifest.kind: expected Rollout |
     service.manifest.metadata.name: missing;
     expected 1 to 63 bytes of a-z 0-9 -, the first and the last no - |
     service.manifest.spec.strategy.canary.steps[0].setWeight: expected a whole number, 0 to 100
{"service":{"version":"v1"}} => service.manifest: expected a Rollout

# Reports.
request {"report":{"service":"web","run":1,"entries":[ ... ]}}
{"metric":"a","ordinal":1,"taken":5,"result":0.97} => report.entries[0].result:
     expected a signed whole number of 64 bits, or a list of 1 to 16 of them
     |     instead: report whole numbers: a share of 0.95 as 95 hundredths
{"metric":"a","ordinal":1,"taken":5,"result":true} => report.entries[0].result:
     expected a signed whole number of 64 bits, or a list of 1 to 16 of them
     |     instead: report 1 for true and 0 for false
{"metric":"a","ordinal":1,"taken":5,"result":"up"} => report.entries[0].result:
     expected a signed whole number of 64 bits, or a list of 1 to 16 of them
     |     instead: report 1 for the text that is wanted, and 0 for others
{"metric":"a","ordinal":1,"taken":5,"result":null} => report.entries[0].result:
     expected a signed whole number of 64 bits, or a list of 1 to 16 of them
     |     instead: report a failure if there is no value
{"metric":"a","ordinal":1,"taken":5,"result":[1,2,3,4,5,6,7,8,9,10,11,12,13,14,15,16,17]} =>
     report.entries[0].result:
     expected a signed whole number of 64 bits, or a list of 1 to 16 of them
{"metric":"a","ordinal":0,"taken":-1,"failure":""} =>
     report.entries[0].ordinal: expected a whole number, 1 to 1,000,000,000 |
     report.entries[0].taken: expected seconds from 1970 as a whole number, 0 to 253370764799 |
     report.entries[0].failure: expected a text of 1 to 200 bytes
{"metric":"a","ordinal":1,"taken":5},{"metric":"b","ordinal":1,"taken":5,"result":1,"failure":"x"} =>
     report.entries[0]: expected exactly one of result and failure |
     report.entries[1]: expected exactly one of result and failure
{"metric":"a","ordinal":1,"taken":5,"result":1},{"metric":"b","ordinal":1,"taken":5,"result":1},
    {"metric":"a","ordinal":2,"taken":6,"result":1} =>
     report.entries[2].metric: expected a metric that no entry before it names
{"metric":"a","ordinal":1,"taken":5,"result":1,"unit":"ms"} => report.entries[0].unit:
     expected no member but metric, ordinal, taken and one of result and failure
 => report.entries: expected a list of 1 to 32 entries
5 => report.entries[0].metric: missing; expected 1 to 63 bytes of A-Z a-z 0-9 . _ - |
     report.entries[0].ordinal: expected a whole number, 1 to 1,000,000,000 |
     report.entries[0].taken: expected seconds from 1970 as a whole number, 0 to 253370764799 |
     report.entries[0]: expected exactly one of result and failure

# 33 entries, and 32.
begins-request {"report":{"service":"web","run":1,"entries":[ ... ]}}
<<32*5,>>5 => report.entries: expected a list of 1 to 32 entries | report.entries[0].metric
<<31*5,>>5 => report.entries[0].metric

# A body is JSON alone: how to make that of YAML, by its documents.
begins-request ...
kind: Rollout => near line 1, column 1: expected JSON in UTF-8,
     with arrays and objects nested at most 127 deep
     |     instead: make JSON of YAML, by yq -o=json FILE
kind: Rollout<<x:0a>>---<<x:0a>>kind: Rollout => near line 1, column 1: expected JSON in UTF-8,
     with arrays and objects nested at most 127 deep
     |     instead: make JSON of one document at a time,
     as of the first by yq -o=json 'select(di == 0)' FILE
