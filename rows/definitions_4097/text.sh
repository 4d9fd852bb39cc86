# A definition of each kind, 25 in all, and locations up to 4097 definitions.
cat <<'TEXT'
m: MODULE
SYN a = 1; SYNMODE b = INT; NEWMODE c = SET (d, e);
DCL f INT, g EVENT, h BUFFER INT; SIGNAL i = (INT);
j: PROC (k INT, l SET (n)) RETURNS (SET (o)); DCL p INT; p := k; RESULT o; END j;
q: PROCESS (r INT); END q;
DO FOR s := 1 TO 2; OD; RECEIVE CASE (h IN t): ESAC; BEGIN DCL u INT; END;
v: MODULE GRANT w; SYN w = 1; END v;
x: REGION SEIZE ALL; GRANT ALL; DCL y INT; END x;
TEXT
awk 'BEGIN { for (k = 26; k <= 4097; k++) print "DCL z" k " INT;" }'
echo 'END m;'
