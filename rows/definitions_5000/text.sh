# 5,000 definitions, of which the 4,097th stands in the head of a procedure, and a name that isn't seen before and behind them.
echo 'm: MODULE'
echo 'y := 1;'
awk 'BEGIN { for (k = 2; k <= 4093; k++) print "DCL z" k " INT;" }'
echo 'p: PROC (k SET (e1, e2), l INT) RETURNS (SET (f)); END p;'
awk 'BEGIN { for (k = 4100; k <= 5000; k++) print "DCL z" k " INT;" }'
echo 'y := 2;'
echo 'END m;'
