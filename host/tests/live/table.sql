-- 200 rows: offsets over the whole range of TIME(6), integers of each width and sign at their ends, texts, dates, NULLs.
CREATE DATABASE depot CHARACTER SET utf8mb4;
CREATE USER depot@localhost IDENTIFIED VIA mysql_native_password USING PASSWORD('it''s "night" \\ 7');
CREATE USER depot@127.0.0.1 IDENTIFIED VIA mysql_native_password USING PASSWORD('it''s "night" \\ 7');
CREATE USER open@localhost IDENTIFIED VIA mysql_native_password;
-- An account whose password has the form of before version 4.1, which the loader must not answer.
SET GLOBAL secure_auth = OFF;
CREATE USER ancient@localhost IDENTIFIED VIA mysql_old_password USING '5d2e19393cc5ef67';
GRANT SELECT ON depot.* TO depot@localhost, depot@127.0.0.1, open@localhost, ancient@localhost;
USE depot;
CREATE TABLE `night``s stops` (
    id INT UNSIGNED PRIMARY KEY,
    t0 TIME(6),
    i8 TINYINT, u8 TINYINT UNSIGNED,
    i16 SMALLINT, u16 SMALLINT UNSIGNED,
    i24 MEDIUMINT, u24 MEDIUMINT UNSIGNED,
    i32 INT, u32 INT UNSIGNED,
    i64 BIGINT, u64 BIGINT UNSIGNED,
    fl FLOAT, db DOUBLE, km DECIMAL(12, 3), yr YEAR,
    station VARCHAR(80), note MEDIUMTEXT, raw_ BLOB,
    d DATE, dt DATETIME(6), ts TIMESTAMP NULL
) ENGINE = InnoDB;
SET time_zone = '+00:00';
INSERT INTO `night``s stops`
WITH RECURSIVE n (i) AS (SELECT 1 UNION ALL SELECT i + 1 FROM n WHERE i < 200)
SELECT i,
    CASE WHEN i = 1 THEN TIME'-838:59:59' WHEN i = 2 THEN TIME'838:59:59.999999' WHEN i = 3 THEN TIME'-00:01:00'
        WHEN i = 4 THEN TIME'00:00:00' WHEN i = 5 THEN TIME'-00:00:00.000001' WHEN i = 6 THEN TIME'-838:59:59.999999'
        WHEN i % 7 = 0 THEN NULL WHEN i % 10 = 3 THEN TIME'-12:34:56.5'
        ELSE SEC_TO_TIME((i - 100) * 29999 + i * 0.123457) END,
    IF(i % 2, -128, 127), IF(i % 2, 0, 255), IF(i % 2, -32768, 32767), IF(i % 2, 0, 65535), IF(i % 2, -8388608, 8388607),
    IF(i % 2, 0, 16777215), IF(i % 2, -2147483648, 2147483647), IF(i % 2, 0, 4294967295),
    IF(i % 2, -9223372036854775808, 9223372036854775807), IF(i % 3, 18446744073709551615, 0),
    i / 7, -i / 3, i * 1.125, 1901 + i, CONCAT('Zürich HB, Gleis ', i), IF(i = 100, REPEAT('Fahrplan ', 3000), IF(i % 5, REPEAT('x', i), NULL)),
    IF(i % 4, UNHEX(SHA2(i, 256)), NULL), IF(i % 6, DATE'2024-02-29' + INTERVAL i DAY, NULL),
    IF(i % 8, TIMESTAMP'2024-02-29 23:59:59.999999' + INTERVAL i HOUR, TIMESTAMP'2024-02-29 00:00:00'), IF(i % 9, FROM_UNIXTIME(i * 86400), NULL)
FROM n;
