UPDATE book SET version = 0
UPDATE book SET version = 3
INSERT INTO book VALUES (1, 'ZZ', 'WHSE1')
DELETE FROM book
