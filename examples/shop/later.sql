UPDATE shop.customer SET note = 'moved' WHERE id = 2;
DELETE FROM shop.orders WHERE customer = 2 AND number = 1;
