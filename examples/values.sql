1> BEGIN;
1> CREATE TABLE edges (k INT PRIMARY KEY, small TEXT(1), large TEXT(64), n INT);
1> INSERT INTO edges VALUES (0, '', '', 0);
1> INSERT INTO edges VALUES (9223372036854775807, 'z', 'the greatest key', -9223372036854775808);
1> INSERT INTO edges VALUES (-9223372036854775808, 'a', 'the least key', 9223372036854775807);
1> INSERT INTO edges VALUES (-1, '''', 'one quote, and between them: ''it''''s''', 007);

1> INSERT   INTO	edges VALUES(10,' ','blanks and tabs may stand between words',-0) ;
1> SELECT * FROM edges;
1> COMMIT;
