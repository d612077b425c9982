conditions 236

# Conditions of success and failure, a result and its phase.
phases
 =>  => [7] => Successful
result[2] > 0 =>  => [1;2] => Error
result[1] == 2 =>  => [1;2] => Successful
result > 0 =>  => [1;2] => Error
result[0] > 0 || result[9] > 0 =>  => [1] => Successful
result[9] > 0 || result[0] > 0 =>  => [1] => Error
result[0] > 1 =>  => [1] => Failed
 => result[0] > 1 => [1] => Successful
 => result[0] > 0 => [1] => Failed
 => result[1] > 0 => [1] => Error
result > 10 => result < 5 => 7 => Inconclusive
result > 1 => result < 9 => 5 => Failed
result > 10 => result < 5 => 11 => Successful
result > 10 => result < 5 => 4 => Failed
result > 10 => result[1] < 5 => 11 => Error
result[1] > 10 => result < 5 => 7 => Error
result[1] > 10 => result < 5 => 3 => Error
!result > 5 =>  => 3 => Successful
!result > 5 =>  => 7 => Failed
not result == 5 =>  => 3 => Successful
not result == 1 and result < 5 =>  => 0 => Successful
not result == 1 and result < 5 =>  => 1 => Failed
not result == 1 and result < 5 =>  => 7 => Failed
result==1||result==2&&result==3 =>  => 1 => Successful
result==1||result==2&&result==3 =>  => 2 => Failed
result==2&&result==3||result==1 =>  => 1 => Successful
(result==1 or result==2) and result==2 =>  => 1 => Failed
!(!(result != 0)) =>  => 0 => Failed
!(!(result != 0)) =>  => 3 => Successful
not!not result>=007 =>  => 7 => Failed
result > -1 =>  => 0 => Successful
result>-1 =>  => -1 => Failed
-0 == 0 =>  => 5 => Successful
result > -9223372036854775808 =>  => -9223372036854775808 => Failed
result >= 9223372036854775807 =>  => 9223372036854775807 => Successful
result[0] > 0 =>  => 1 => Error
!(result[0] > 0) =>  => 1 => Error
result > 0 && result[0] > 0 =>  => 0 => Failed
result[0] > 0 && result > 0 =>  => 0 => Error
result > 0 || result[0] > 0 && result > 0 =>  => 1 => Successful
<<x:09>>result<<x:0d0a>><= 5  =>  => 5 => Successful
<<1021*!>>0<1 =>  => 5 => Failed
<<101*result>0||>>result >= 0000 =>  => 0 => Successful
result < 5 =>  => 5 => Failed
result[0] > 0 || result[9] > 0 =>  => [0] => Error
result > 0 && result[0] > 0 =>  => 1 => Error
0 < result =>  => [1] => Error
result [ 01 ] == 2 =>  => [1;2] => Successful
result > 10 => result[1] < 5 => 4 => Error
result[9] != 0 =>  => [1] => Error
result[0] == result[1] =>  => [5;5] => Successful
result[0] == result[1] =>  => [5;6] => Failed

# Texts that are no condition.
refused
result >
result === 1
result > 1 &
result2 > 1
result > 1 result > 2
(result > 1
result > 1)
result > 1 || not
result > 9223372036854775808 @
result > 9223372036854775808
result > -9223372036854775809
9223372036854775808
result<<x:0c>>> 1
Result > 1
result > 1 AND result < 5
result[9223372036854775808] > 0
result > 1and result < 5
result > -1a

# Texts that are no condition, the byte where each stops being one, what is expected there, and what
# to write instead, where it is known.
stops
  => 1 result, a whole number, ( or !
result > => 8 result or a whole number
result >   => 10 result or a whole number
result > 0.5 => 10 result, a whole number, a bracket, a comparison, &&, || or !
     => report tenths, and write 5 for 0.5
result > 0 .5 => 11 result, a whole number, a bracket, a comparison, &&, || or !
     => scale the results and the number to whole numbers, as 0.95 to 95 hundredths
result > 1.2.3 => 10 result, a whole number, a bracket, a comparison, &&, || or !
     => scale the results and the number to whole numbers, as 0.95 to 95 hundredths
result > 95.5% => 11 result, a whole number, a bracket, a comparison, &&, || or !
     => report tenths, and write 955 for 95.5
(result > 1 => 11 &&, || or )
result => 6 [, ==, !=, <, <=, > or >=
     => report 1 for true and 0 for false, and write result == 1 for result
result > 1 1 => 11 &&, || or the end
result[x] > 1 => 7 result, a whole number, a bracket, a comparison, &&, || or !
result[result] > 1 => 7 the digits of an index
result[1 > 1 => 9 ]
result 1 => 7 [, ==, !=, <, <=, > or >=
1 => 1 ==, !=, <, <=, > or >=
1 > result > => 11 [, &&, || or the end
     => write 1 < result && result < 5 for 1 < result < 5
(1 > result => 11 [, &&, || or )
(1 > result[0] => 14 &&, || or )
result > 1) => 10 &&, || or the end
not => 3 result, a whole number, ( or !
result > 1 and ) => 15 result, a whole number, ( or !
<<32*(>>result><<32*)>> => 39 result or a whole number
result.5 > 1 => 6 result, a whole number, a bracket, a comparison, &&, || or !
result > 95% => 11 result, a whole number, a bracket, a comparison, &&, || or !
result > 95% or result < 5 => 11 result, a whole number, a bracket, a comparison, &&, || or !
result === 1 => 9 result, a whole number, a bracket, a comparison, &&, || or !
result[i] > 5 => 7 result, a whole number, a bracket, a comparison, &&, || or !
if (result > 5) => 0 result, a whole number, a bracket, a comparison, &&, || or !
(result > 5)[0] > 1 => 12 &&, || or the end
(result > 5) == (result > 6) => 13 &&, || or the end
result > 1 &&<<x:c3a9>><<x:09>>result > 1 <<40* || result > 1>> => 13
     result, a whole number, a bracket, a comparison, &&, || or !
<<20*result > 1 && >>result > 1 && é && <<20*result > 1 && >>result > 1 => 294
     result, a whole number, a bracket, a comparison, &&, || or !

# Which fault comes first: too long, no token, a number out of range, too deep, and all others.
stops
<<1025* >> => 1024 at most 1,024 bytes
<<1024* >> => 1024 result, a whole number, ( or !
<<1022*!>>0<1 => 1024 at most 1,024 bytes
result > 9223372036854775808 @ => 29 result, a whole number, a bracket, a comparison, &&, || or !
result > 1 || 2 @ => 16 result, a whole number, a bracket, a comparison, &&, || or !
result 1 > 9223372036854775808 => 11 a signed number of 64 bits
     => report in a larger unit, in which the number is smaller
<<33*(>>result > 9223372036854775808<<33*)>> => 42 a signed number of 64 bits
     => report in a larger unit, in which the number is smaller
result > -9223372036854775809 => 9 a signed number of 64 bits
     => report in a larger unit, in which the number is smaller
9223372036854775808 => 0 a signed number of 64 bits
     => report in a larger unit, in which the number is smaller
<<33*(>>result>0<<33*)>> => 32 at most 32 open brackets
<<33*(>>result > => 32 at most 32 open brackets
)))<<32*(>>result>0<<32*)>> => 0 result, a whole number, ( or !

# Texts that are conditions, of at most 1,024 bytes.
accepted
result > -9223372036854775808
<<300*!>>result>0
<<1021*!>>0<1
<<101*result>0||>>result >= 0000
<<32*(>>result>0<<32*)>>

# A place in the list is any number of 64 bits, and brackets count while they are open.
accepted
result[16] > 0
result[9223372036854775807] > 0
<<32*(>>result[0]>0<<32*)>>
<<33*(result>0)||>>result>0

# Texts that are nested too deep, or too long.
refused
<<33*(>>result>0<<33*)>>
<<1022*!>>0<1
<<1025* >>
<<1024* >>

# Forms of Argo Rollouts' conditions that are not read, each with what may be written instead. The
# head of a block has what `canary check` says of its rows.
instead report hundredths, and write 95 for 0.95
result >= 0.95 => result >= 95
result[0] >= 0.95 => result[0] >= 95
(0.95 <= result[12]) => (95 <= result[12])
result > -0.95 => result > -95
!(result>0.95) => !(result>95)

instead report tenths, and write 5 for .5
result > .5 => result > 5

instead report tenths, and write 0 for 0.0
result > 0.0 => result > 0

instead report tenths, and write 10205 for 1020.5
result > 1020.5 => result > 10205

instead report hundredths, and write 5 for 00.05
result > 00.05 => result > 5

instead report thousandths, and write 123456789012345678 for 123456789012345.678
result < 123456789012345.678 => result < 123456789012345678

instead report tenths, and write 15 for 1.5, and other numbers for that result in tenths
result > 1.5 && result < 3 => result > 15 && result < 30

instead report hundredths, and write 0 for 0.0, and other numbers for that result in hundredths
result > 0.0 && result <= 0.25 => result > 0 && result <= 25

instead report thousandths, and write 500 for .5,
     and other numbers for that result in thousandths
result > .5 && result < 1.125 => result > 500 && result < 1125

instead scale the results and the number to whole numbers, as 0.95 to 95 hundredths
result > 0.9995 => result > 9995
result > 1.5e3 => result > 1500
result > 0.5 && result < 0.9995 => result > 5000 && result < 9995
result > 1234567890123456.5 => result > 1234567890123456

instead report 1 for the text that is wanted, and write result == 1 for result == "up"
result == "up" => result == 1
result == 'up' => result == 1
"up" == result => result == 1
result == ["up"] => result == 1

instead report 1 for true and 0 for false, and write result == 1 for result == true
result == true => result == 1
result != false => result != 0

instead report 1 for true and 0 for false, and write result == 1 for result
result => result == 1
!result => result == 0
result && result > 5 => result == 1 && result > 5
(result or result > 5) => (result == 1 or result > 5)
result[0] => result[0] == 1

instead report a failure if there is no value, and write result < 5 for default(result, 0) < 5
result == nil => result == 0
result ?? 0 < 5 => result < 5
default(result, 0) < 5 => result < 5

instead leave it out: an agent that has no value reports a failure
len(result) == 0 || result[0] < 5 => result[0] < 5
len( result ) ==0 or result[0] < 5 => result[0] < 5
isNaN(result) || result < 5 => result < 5
isNaN (result[0])||result[0] < 5 => result[0] < 5
(isNaN(result) || result < 5) && result > 0 => (result < 5) && result > 0
result < 5 || isNaN(result) => result < 5
result < 5 or len(result) == 0 => result < 5
(result < 5 || isNaN(result)) && result > 0 => (result < 5) && result > 0
result > 9 || isNaN(result) || result < 5 => result > 9 || result < 5

instead report a failure if the value is no finite number, and leave isNaN and isInf out
isNaN(result) => result == 1
isInf(result) => result == 1
!isNaN(result) && result > 5 => result > 5
!isNaN(result) || result > 5 => result > 5
result > 5 && isNaN(result) || result < 2 => result < 2
isNaN(result) && result > 5 => result > 5

instead write result for asInt(result): a result is a whole number
asInt(result) < 5 => result < 5
asFloat(result[0]) < 5 => result[0] < 5

instead report the length, and write result == 2 for len(result) == 2
len(result) == 2 => result == 2
len(result) == 01 || result < 5 => result < 5
len(result) != 0 || result < 5 => result < 5
len(result) == 0 && result < 5 => result < 5

instead write brackets round comparisons alone: result > 5 for (result) > 5
(result) > 5 => result > 5
(result[0]) > (5) => result[0] > 5
result > (5) => result > 5

instead count the places of a list from 0: result[0] is the first
result[-1] > 5 => result[1] > 5

instead name each place of the list: result[0] and result[1]
result[0:2] == 5 => result[0] == 5 && result[1] == 5

instead report one list of whole numbers, with no list inside it
result[0][1] > 5 => result[1] > 5

instead report the value, and write result > 5 for result.value > 5
result.value > 5 => result > 5
result["value"] > 5 => result[0] > 5
result[0].value > 5 => result[0] > 5
result?.value > 5 => result > 5

instead report what the arithmetic gives, or write result > 6 for result - 1 > 5
result + 1 > 5 => result > 4
result - 1 > 5 => result > 6
result -1 > 5 => result > 6
result * 2 > 5 => result > 2
result / 2 > 5 => result > 10
result % 2 == 0 => result == 0
result ** 2 > 5 => result > 2 || result < -2

instead write the minus directly before its digits: -5 for - 5
result > - 5 => result > -5

instead write result < -5 for -result > 5
-result > 5 => result < -5

instead write 5 for +5
result > +5 => result > 5

instead write digits alone: 1000 for 1_000 and 1e3, 31 for 0x1F
result > 1_000 => result > 1000
result > 0x1F => result > 31
result > 1e3 => result > 1000
result > -1e3 => result > -1000

instead report in a larger unit, in which the number is smaller
result > 9223372036854775808 => result > 9223372036854775

instead write 1 < result && result < 5 for 1 < result < 5
1 < result < 5 => 1 < result && result < 5

instead write result == 1 || result == 2 for result in [1, 2], and result >= 1 && result <= 5
     for result in 1..5
result in [1, 2] => result == 1 || result == 2
result not in [1, 2] => not (result == 1 or result == 2)
result in 1..5 => result >= 1 && result <= 5
result == 1..5 => result >= 1 && result <= 5

instead write result[0] == 1 && result[1] == 2 for result == [1, 2]
result == [1, 2] => result[0] == 1 && result[1] == 2
result == [1] => result[0] == 1

instead write result > 5 for result > 5 ? true : false
result > 5 ? true : false => result > 5

instead report what the function gives, or write result[0] > 5 && result[1] > 5 for
     all(result, {# > 5})
all(result, {# > 5}) => result[0] > 5 && result[1] > 5
any(result, # > 5) => result[0] > 5 || result[1] > 5
none(result, {# > 5}) => result[0] <= 5 && result[1] <= 5
one(result, {# > 5}) => result[0] > 5 && result[1] <= 5 || result[0] <= 5 && result[1] > 5
filter(result, {# > 5}) == [] => result[0] <= 5 && result[1] <= 5
map(result, {# * 2})[0] > 5 => result[0] > 2
count(result, {# > 5}) == 2 => result[0] > 5 && result[1] > 5
max(result) > 5 => result[0] > 5 || result[1] > 5
min(result) > 5 => result[0] > 5 && result[1] > 5
sum(result) > 5 => result > 5

instead report 1 where the text passes the test, and write result == 1
result matches "up" => result == 1
result contains "up" => result == 1
result startsWith "up" => result == 1
result endsWith "up" => result == 1

instead write || between two conditions, and report what a pipe gives
result | len() == 2 => result == 2
result > 5 | result < 1 => result > 5 || result < 1

instead write && for &
result > 1 & result < 5 => result > 1 && result < 5

instead write == for =
result = 5 => result == 5

instead write result, and, or and not in small letters
Result > 5 => result > 5
result > 1 AND result < 5 => result > 1 and result < 5

instead write result > 5 for let x = result; x > 5
let x = result; x > 5 => result > 5

instead leave the comment out
result > 5 // high => result > 5
result > 5 /* high */ => result > 5

instead fill {{..}} in before the manifest is sent
result > {{args.limit}} => result > 5
