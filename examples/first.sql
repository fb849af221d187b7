1> BEGIN;
1> CREATE TABLE stock (id INT PRIMARY KEY, name TEXT(16), pieces INT);
1> INSERT INTO stock VALUES (7, 'nut', 400);
1> INSERT INTO stock VALUES (-2, 'bolt, 8''', 25);
1> SELECT * FROM stock;
1> COMMIT;

1> BEGIN;
1> INSERT INTO stock VALUES (7, 'nail', 90);
1> INSERT INTO stock VALUES (8, 'nail', 'many');
1> INSERT INTO stock VALUES (9, 'nail', 90);
1> SELECT * FROM stock;
1> COMMIT;
