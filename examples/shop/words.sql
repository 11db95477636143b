CREATE TABLE shop.word (word VARCHAR(9) COLLATE utf8mb4_general_ci PRIMARY KEY, number INT);
INSERT INTO shop.word VALUES ('a', 1), ('B', 2), ('c', NULL);
