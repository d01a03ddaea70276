-- A store of the first version, as `ixpm upgrade` takes it: `sqlite3 ixpm.db < examples/version-1.sql` in an empty
-- folder makes it. Its registry is that of an exchange with two members and a route server.
PRAGMA journal_mode = WAL;
CREATE TABLE entry (kind INTEGER NOT NULL, name BLOB NOT NULL, body BLOB NOT NULL, PRIMARY KEY (kind, name));
INSERT INTO entry (kind, name, body) VALUES
  (0, CAST('' AS BLOB), CAST('1' AS BLOB)),
  (1, CAST('' AS BLOB), CAST('site 1 0 DEMO' AS BLOB)),
  (2, CAST('1' AS BLOB), CAST('member 1 65001 connected - A' AS BLOB)),
  (2, CAST('2' AS BLOB), CAST('member 2 65002 connected - B' AS BLOB)),
  (4, CAST('1' AS BLOB), CAST('key 1 staff 1 staff00000000001' AS BLOB)),
  (5, CAST('1' AS BLOB), CAST('switch 1 sw1' AS BLOB)),
  (6, CAST('1' AS BLOB), CAST('port 1 1 10000 1 p1' AS BLOB)),
  (6, CAST('2' AS BLOB), CAST('port 2 1 10000 2 p2' AS BLOB)),
  (7, CAST('1' AS BLOB), CAST('vlan 1 100 10.1.0.0/24 - lan' AS BLOB)),
  (8, CAST('1' AS BLOB), CAST('interface 1 1 1 1' AS BLOB)),
  (8, CAST('2' AS BLOB), CAST('interface 2 2 2 1' AS BLOB)),
  (9, CAST('1 4' AS BLOB), CAST('address 1 10.1.0.1 0 1 1 0 -' AS BLOB)),
  (9, CAST('2 4' AS BLOB), CAST('address 2 10.1.0.2 0 1 1 0 -' AS BLOB)),
  (10, CAST('rs1' AS BLOB), CAST('router rs1 1 4 10.1.0.254 65500 10.1.0.254 8 24 0' AS BLOB)),
  (11, CAST('1 4' AS BLOB), CAST('prefix 1 203.0.113.0/24' || char(10) AS BLOB)),
  (12, CAST('1 4' AS BLOB), CAST('origin 1 4 65001' || char(10) AS BLOB)),
  (18, CAST('staff 1' AS BLOB), CAST('3' AS BLOB)),
  (19, CAST('staff 1 4' AS BLOB), CAST('PutOrigins 1 4 2' AS BLOB)),
  (20, CAST('' AS BLOB), CAST('2' AS BLOB));
