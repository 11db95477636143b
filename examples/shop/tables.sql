CREATE DATABASE shop;
CREATE TABLE shop.customer (id BIGINT PRIMARY KEY, name VARCHAR(40), note VARCHAR(40));
CREATE TABLE shop.orders (customer BIGINT, number INT, item VARCHAR(40), price DECIMAL(8,2), PRIMARY KEY (customer, number));
