INSERT INTO shop.customer VALUES (1, 'Ad', NULL), (2, 'Grace', 'first');
INSERT INTO shop.orders VALUES (1, 1, 'tea', 2.75), (2, 1, 'nails', 0.10), (2, 2, 'tea', 2.75);
