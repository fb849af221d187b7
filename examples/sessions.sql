-- Two sessions that meet. Session 1 makes a table.
1> BEGIN;
1> CREATE TABLE accounts (id INT PRIMARY KEY, owner TEXT(8), cents INT);
1> INSERT INTO accounts VALUES (1, 'ann', 500);
1> INSERT INTO accounts VALUES (2, 'bob', 300);
1> COMMIT;
-- A row that another writes is locked until its transaction ends.
1> BEGIN;
2> BEGIN;
1> UPDATE accounts SET cents = cents + -100 WHERE id = 1;
2> UPDATE accounts SET cents = cents + 100 WHERE id = 1;
2> SELECT * FROM accounts WHERE id = 1;
1> COMMIT;
-- It was changed since session 2 began, which sees its own snapshot.
2> SELECT * FROM accounts WHERE id = 1;
2> UPDATE accounts SET cents = cents + 100 WHERE id = 1;
2> ROLLBACK;
2> begin;
2> update accounts set cents = cents + 100 where id = 1;
-- A table in use isn't dropped.
1> BEGIN;
1> DROP TABLE accounts;
2> COMMIT;
1> DROP TABLE accounts;
3> BEGIN;
3> SELECT * FROM accounts;
1> COMMIT;
3> SELECT * FROM accounts;
