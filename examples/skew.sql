-- Write skew, which snapshot isolation allows. One of two has to stay on call: each session reads that both
-- are, and lets its own go. They write different rows, so neither is refused.
1> BEGIN;
1> CREATE TABLE duty (id INT PRIMARY KEY, on_call INT);
1> INSERT INTO duty VALUES (1, 1);
1> INSERT INTO duty VALUES (2, 1);
1> COMMIT;
1> BEGIN;
2> BEGIN;
1> SELECT * FROM duty;
2> SELECT * FROM duty;
1> UPDATE duty SET on_call = 0 WHERE id = 1;
2> UPDATE duty SET on_call = 0 WHERE id = 2;
1> COMMIT;
2> COMMIT;
1> BEGIN;
1> SELECT * FROM duty;
