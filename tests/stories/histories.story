histories 65

# Each reply, and the lines that its request adds to the history of web. The last promotion of the
# first comes with an earlier moment.
0 service v1 setWeight:20 pause setWeight:50 pause => [web Healthy 4 100] => 0 created v1;
1 start v2 => [web Paused 1 20] => 1 start v2;1 step 0 setWeight 20;1 step 1 pause;
2 promote => [web Paused 3 50] => 2 promote;2 step 2 setWeight 50;2 step 3 pause;
0 promote => [web Healthy 4 100] => 2 promote;2 done v2;

0 service v1 setWeight:20 pause => [web Healthy 2 100] => 0 created v1;
1 start v2 => [web Paused 1 20] => 1 start v2;1 step 0 setWeight 20;1 step 1 pause;
2 abort => [web Degraded 1 0] => 2 abort;
3 retry => [web Paused 1 20] => 3 retry v2;3 step 0 setWeight 20;3 step 1 pause;
4 retry => not-aborted => nothing
4 abort => [web Degraded 1 0] => 4 abort;
5 start v1 => [web Healthy 2 100] => 5 start v1;5 done v1;

0 service v1 setWeight:20 pause => [web Healthy 2 100] => 0 created v1;
1 start v2 => [web Paused 1 20] => 1 start v2;1 step 0 setWeight 20;1 step 1 pause;
2 abort => [web Degraded 1 0] => 2 abort;
3 start v2 => [web Paused 1 20] => 3 start v2;3 step 0 setWeight 20;3 step 1 pause;
4 start v2 => in-progress => nothing

0 service v1 pause:300 pause => [web Healthy 2 100] => 0 created v1;
0 start v2 => [web Paused 0 0] => 0 start v2;0 step 0 pause 300s;
299 tick => [web Paused 0 0] => nothing
300 tick => [web Paused 1 0] => 300 step 1 pause;

0 service v1 pause:300 pause => [web Healthy 2 100] => 0 created v1;
0 start v2 => [web Paused 0 0] => 0 start v2;0 step 0 pause 300s;
301 tick => [web Paused 1 0] => 300 step 1 pause;

0 template t m,success=result>10,failure=result<5 => [t 1] => nothing
0 service v1 setWeight:20 pause background:t => [web Healthy 2 100] => 0 created v1;
0 start v2 => [web Paused 1 20] => 0 start v2;0 background run 1;0 step 0 setWeight 20;0 step 1 pause;
0 report 1 m:1:0:7 => [web Paused 1 20 | 1 Inconclusive | Inconclusive] => 0 run 1 Inconclusive;0 hold background;
0 promote => [web Paused 1 20] => 0 promote;0 step 1 pause;
0 promote => [web Healthy 2 100] => 0 promote;0 done v2;

0 template t m => [t 1] => nothing
0 service v1 setWeight:20 pause background:t => [web Healthy 2 100] => 0 created v1;
0 start v2 => [web Paused 1 20] => 0 start v2;0 background run 1;0 step 0 setWeight 20;0 step 1 pause;
1 abort => [web Degraded 1 0] => 1 abort;1 run 1 Successful ended;

0 template t m,success=result>10,failure=result<5 => [t 1] => nothing
0 service v1 setWeight:10 analysis:t setWeight:60 pause => [web Healthy 4 100] => 0 created v1;
0 start v2 => [web Progressing 1 10] => 0 start v2;0 step 0 setWeight 10;0 step 1 analysis run 1;
0 report 1 m:1:0:7 => [web Paused 1 10 | 1 Inconclusive | Inconclusive] => 0 run 1 Inconclusive;0 hold step 1;
1 promote => [web Paused 3 60] => 1 promote;1 step 2 setWeight 60;1 step 3 pause;

0 template t a,success=result>10,failure=result<5 b,success=result==0 => [t 1] => nothing
0 service v1 setWeight:10 analysis:t setWeight:60 pause => [web Healthy 4 100] => 0 created v1;
0 start v2 => [web Progressing 1 10] => 0 start v2;0 step 0 setWeight 10;0 step 1 analysis run 1;
0 report 1 a:1:0:7 b:1:0:1 => [web Degraded 1 0 | 1 Inconclusive Failed | Failed] => 0 run 1 Failed;0 abort run 1;

0 template t m => [t 1] => nothing
0 service v1 setWeight:10 analysis:t setWeight:60 pause => [web Healthy 4 100] => 0 created v1;
0 start v2 => [web Progressing 1 10] => 0 start v2;0 step 0 setWeight 10;0 step 1 analysis run 1;
0 promoteFull => [web Healthy 4 100] => 0 promote full;0 run 1 Successful ended;0 done v2;

# An abort is reported after what time has brought by then, and a run that time ends where it does.
0 service v1 pause:10 pause => [web Healthy 2 100] => 0 created v1;
0 start v2 => [web Paused 0 0] => 0 start v2;0 step 0 pause 10s;
20 abort => [web Degraded 1 0] => 10 step 1 pause;20 abort;

0 template t m,interval=60 => [t 1] => nothing
0 service v1 pause:10 background:t => [web Healthy 1 100] => 0 created v1;
0 start v2 => [web Paused 0 0] => 0 start v2;0 background run 1;0 step 0 pause 10s;
20 tick => [web Healthy 1 100] => 10 run 1 Successful ended;10 done v2;

# A template adds no line, whether a release is under way or not, and a start that is not bound none.
0 template t m,success=result==0 => [t 1] => nothing
0 service v1 analysis:t pause => [web Healthy 2 100] => 0 created v1;
0 start v2 => [web Progressing 0 0] => 0 start v2;0 step 0 analysis run 1;
1 template t m,success=result==1 => [t 2] => nothing
2 report 1 m:1:2:1 => [web Degraded 0 0 | 1 Failed | Failed] => 2 run 1 Failed;2 abort run 1;
3 template t m,interval=60 => [t 3] => nothing
4 retry => endless-metric => nothing
5 start v3 => endless-metric => nothing
6 template t m m => duplicate-metric => nothing
7 template t m,success=result==1 => [t 4] => nothing
8 retry => [web Progressing 0 0] => 8 retry v2;8 step 0 analysis run 2;
9 report 2 m:1:9:1 => [web Paused 1 0 | 2 Successful | Successful] => 9 run 2 Successful;9 step 1 pause;
