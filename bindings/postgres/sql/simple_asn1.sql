-- Each value is worked out by hand from the bytes.
CREATE EXTENSION simple_asn1;
SET timezone = 'UTC';
SET datestyle = 'ISO';
\pset null null

-- a SEQUENCE of -1, 1.2.3 and NULL, and after it [2^64] of the context class without contents
SELECT * FROM der_blocks('\x30090201ff06022a0305009f8280808080808080800000');
SELECT b.tag, b.offset FROM der_blocks('\x0500') b;
SELECT * FROM der_blocks('\x300702');
SELECT * FROM der_blocks('\x');
SELECT * FROM der_blocks(NULL);

-- a document that is read in parts: a SEQUENCE of 40,000 NULLs, [0] of an OCTET STRING of 70,000 bytes, and [1] of so
-- many bytes that are no blocks
CREATE TEMP TABLE long AS SELECT decode('3083035b6f' || repeat('0500', 40000) || 'a0830111750483011170'
    || repeat('00', 70000) || 'a183011170' || repeat('ff', 70000), 'hex') AS it;
SELECT b.* FROM long, der_blocks(it) b WHERE b.index < 2 OR b.index > 39999;
SELECT count(*), sum(b.index), sum(b.offset) FROM long, der_blocks(it) b WHERE b.tag = 5;
SELECT * FROM der_blocks((SELECT substring(it FOR 220019) FROM long));

-- paths
CREATE TEMP TABLE document AS SELECT '\x300d0201ffa00506022a030500310002010704021234'::bytea AS it;
SELECT der_at(it, 0), der_at(it, 0, 0), der_at(it, 0, 1), der_at(it, 0, 1, 0), der_at(it, 0, 2), der_at(it, 1),
       der_at(it, 2) FROM document;
SELECT der_at(it, 0, 3), der_at(it, 4), der_at(it, -1), der_at(it, 0, 0, 0), der_at(it, 1, 0), der_at(it, 0, NULL),
       der_at(it, VARIADIC '{}') FROM document;

-- numbers up to any size
SELECT der_integer('\x0201ff', 0), der_integer('\x02087fffffffffffffff', 0), der_integer('\x02088000000000000000', 0);
SELECT der_integer('\x0209008000000000000000', 0), der_integer('\x0209ff7fffffffffffffff', 0);
SELECT der_integer('\x020900ffffffffffffffff', 0), der_integer('\x0209ff0000000000000000', 0);
SELECT der_integer('\x021100ffffffffffffffffffffffffffffffff', 0) = 2::numeric ^ 128 - 1 AS greatest,
       der_integer('\x0211ff00000000000000000000000000000000', 0) = -(2::numeric ^ 128) AS least,
       der_integer('\x0211ffffffffffffffffffffffffffffffffff', 0) AS minus_one,
       der_integer('\x020a00000000000000000000', 0) AS zero;
SELECT der_integer('\x02820400' || decode('01' || repeat('00', 1023), 'hex'), 0) = 2::numeric ^ 8184 AS fits,
       der_integer('\x02820401' || decode('01' || repeat('00', 1024), 'hex'), 0) AS longer,
       length(der_contents('\x02820401' || decode('01' || repeat('00', 1024), 'hex'), 0));
SELECT der_integer('\x0500', 0), der_integer('\x0201ff', 1), der_integer('\x0201ff', -1), der_integer('\x0201ff', 9);

-- texts, identifiers and times
SELECT der_text('\x0c03416461', 0), der_text('\x300513034c6f75', 2), der_text('\x0500', 0), der_text(NULL, 0);
SELECT der_text('\x0500130140', 2), der_text('\x05000c0100', 2), der_text('\x05000c01ff', 2);
SELECT length(der_text('\x0c820400' || decode(repeat('41', 1024), 'hex'), 0));
SELECT der_oid('\x0603550403', 0), der_oid('\x06092a864886f70d01010b', 0), der_oid('\x0500', 0);
SELECT der_oid('\x050006022a83', 2), der_oid('\x050006022a83', 3);
SELECT der_oid('\x06820400' || decode('2a81' || repeat('80', 1021) || '00', 'hex'), 0)
           = '1.2.' || trunc(2::numeric ^ 7154) AS fits,
       der_oid('\x06820401' || decode('2a81' || repeat('80', 1022) || '00', 'hex'), 0) AS longer;
SELECT der_time('\x170d3439313233313233353935395a', 0), der_time('\x170d3530303130313030303030305a', 0),
       der_time('\x181232303236303130323033303430352e32355a', 0), der_time('\x0500', 0);
SELECT der_time('\x0500170d3439313331313233353935395a', 2), der_fault('\x0500170d3439313331313233353935395a');
SELECT der_contents('\x0500170d3439313331313233353935395a', 2), der_contents('\x0500', 0), der_contents('\x0500', 1),
       der_contents('\xa103020105', 0), der_contents('\x0500', -1);

-- a row with an invalid time is in an index as any other
CREATE TEMP TABLE time AS SELECT '\x170d3439313331313233353935395a'::bytea AS it;
CREATE INDEX ON time (der_time(it, 0));
INSERT INTO time VALUES ('\x170d3530303130313030303030305a');
SELECT it, der_time(it, 0) FROM time ORDER BY 2;
DROP TABLE time;

-- tag numbers: of 1,024 identifier octets, and of more
SELECT b.tag = 2::numeric ^ 7154 AS fits, b.size
FROM der_blocks('\x9f81' || decode(repeat('80', 1021) || '0000', 'hex')) b;
SELECT b.* FROM der_blocks('\x9f81' || decode(repeat('80', 1022) || '0000', 'hex') || '\x0500') b;

-- nothing takes long
SET statement_timeout = '10s';
SELECT der_oid('\x06830f4242' || decode('2a' || repeat('ff', 1000000) || '7f', 'hex'), 0) AS oid,
       der_integer('\x02830f4240' || decode(repeat('77', 1000000), 'hex'), 0) AS integer;
SELECT b.* FROM der_blocks('\x9f' || decode(repeat('ff', 1000000) || '7f00', 'hex')) b;
SELECT count(*), count(b.tag) FROM der_blocks(decode(repeat('9f' || repeat('ff', 1022) || '7f00', 100), 'hex')) b;
RESET statement_timeout;

-- canonical form, and faults
SELECT der_rewrite('\x308103020105'), der_rewrite('\x0101aa');
SELECT der_rewrite('\x0500300302');
SELECT der_fault('\x0500'), der_fault('\x0500300302'), der_fault(''), der_fault('\x0500308103020105', true),
       der_fault('\x308103020105'), (der_fault('\x05000102ffff')).*;
SELECT der_fault('\x0500') IS NULL AS read, (der_fault('\x0500')).fault;

-- the fields of a certificate that the package cryptography for Python made, as openssl shows them
CREATE TEMP TABLE certificate AS SELECT decode('308201063081b9a00302010202021234300506032b65703019310b3009060355040613024348310a300806035504030c01653020170d32'
    || '36303130323033303430355a180f32303536303130323033303430355a3019310b3009060355040613024348310a300806035504030c01'
    || '65302a300506032b657003210003a107bff3ce10be1d70dd18e74bc09967e4d6309ba50d5f1ddc8664125531b8a3233021300f0603551d'
    || '130101ff040530030101ff300e0603551d11040730058203652e78300506032b6570034100ca8392a0aef788963c2ba366ced2c8c180aa'
    || '9f07c398da3637c96d8a7a38414962269433865b558217208f1209c497d96049d9286fb99621f1d5561171f18b01', 'hex') AS der;
SELECT c.serial_number, c.not_before, c.not_after, c.version, c.public_key_algorithm, c.signature_algorithm
FROM certificate, der_certificate(der) c;
SELECT c.issuer, c.subject, c.extensions FROM certificate, der_certificate(der) c;
SELECT c.subject_public_key_info, c.signature = substring(der FROM 203) AS signature,
       c.tbs_certificate = substring(der FROM 5 FOR 188) AS tbs FROM certificate, der_certificate(der) c;
-- without version and extensions, and with a serial number beyond bigint
SELECT c.serial_number, c.version, c.extensions, c.subject FROM der_certificate(
    '\x304b3040020900ffffffffffffffff300306012a3000301e170d3236303130313030303030305a170d3237303130313030303030305a'
    '3000300a300306012a0303000102300306012a030200ff') c;
-- what is none
SELECT der_certificate('\x0500') IS NULL AS another, der_certificate(substring(der FOR 265)) IS NULL AS cut_off,
       der_certificate('') IS NULL AS empty, der_certificate(NULL) IS NULL AS null FROM certificate;
DROP EXTENSION simple_asn1;
