@CREATE TABLE book (version INTEGER NOT NULL, qualifier TEXT NOT NULL, id TEXT NOT NULL) STRICT
@CREATE TABLE entry (seq INTEGER PRIMARY KEY, who TEXT NOT NULL, mark TEXT NOT NULL, n INTEGER NOT NULL, moment TEXT NOT NULL, body BLOB NOT NULL, UNIQUE (who, mark), UNIQUE (who, n)) STRICT
@CREATE TABLE outgoing (who TEXT NOT NULL, n INTEGER NOT NULL, kind TEXT NOT NULL, content BLOB NOT NULL, state TEXT NOT NULL, PRIMARY KEY (who, n)) STRICT
@CREATE TABLE stock (who TEXT NOT NULL, item TEXT NOT NULL, lot TEXT NOT NULL, since INTEGER NOT NULL, expected INTEGER NOT NULL, on_hand INTEGER NOT NULL, reserved INTEGER NOT NULL, shipped INTEGER NOT NULL, PRIMARY KEY (who, item, lot), CHECK (expected >= 0 AND on_hand >= 0 AND reserved >= 0 AND shipped >= 0 AND reserved <= on_hand)) STRICT
@CREATE TABLE advice (who TEXT NOT NULL, shipment TEXT NOT NULL, ord TEXT NOT NULL, is_open INTEGER NOT NULL, PRIMARY KEY (who, shipment)) STRICT
@CREATE TABLE advice_line (who TEXT NOT NULL, shipment TEXT NOT NULL, line INTEGER NOT NULL, item TEXT NOT NULL, lot TEXT NOT NULL, quantity INTEGER NOT NULL, PRIMARY KEY (who, shipment, line)) STRICT
@CREATE TABLE orders (who TEXT NOT NULL, ord TEXT NOT NULL, is_open INTEGER NOT NULL, to_name TEXT, to_one TEXT NOT NULL, to_two TEXT NOT NULL, to_place TEXT NOT NULL, PRIMARY KEY (who, ord)) STRICT
@CREATE TABLE order_line (who TEXT NOT NULL, ord TEXT NOT NULL, line INTEGER NOT NULL, item TEXT NOT NULL, lot TEXT, quantity INTEGER NOT NULL, PRIMARY KEY (who, ord, line)) STRICT
@CREATE TABLE reservation (who TEXT NOT NULL, ord TEXT NOT NULL, item TEXT NOT NULL, lot TEXT NOT NULL, quantity INTEGER NOT NULL, PRIMARY KEY (who, ord, item, lot)) STRICT
