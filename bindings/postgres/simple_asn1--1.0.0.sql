\echo Use "CREATE EXTENSION simple_asn1" to load this file. \quit

-- The blocks of a document, in order: where each begins, the bytes of its header (identifier and length octets) and of
-- all of it, and how many blocks are directly inside it. The class is 0 universal, 1 application, 2 context-specific,
-- 3 private. A tag number with more than 1,024 identifier octets is null. Bytes that are no document are an error that
-- tells the offset.
CREATE FUNCTION der_blocks(document bytea, OUT index int, OUT depth int, OUT class int, OUT tag numeric,
                           OUT "offset" int, OUT size int, OUT items int, OUT header int, OUT constructed bool)
    RETURNS SETOF record AS 'MODULE_PATHNAME' LANGUAGE C IMMUTABLE STRICT PARALLEL SAFE COST 1000 ROWS 60;

-- The offset of the block at a path: of the block with the first number among those at the top, then of the one with
-- the next number inside it, and so on, from 0. It is null if there is none. Only headers on the way are looked at.
CREATE FUNCTION der_at(document bytea, VARIADIC path int[]) RETURNS int
    AS 'MODULE_PATHNAME' LANGUAGE C IMMUTABLE STRICT PARALLEL SAFE COST 10;

-- The value of the block at an offset: an INTEGER; the text of a string of any kind; an OBJECT IDENTIFIER as in
-- 1.2.840; a UTCTime or GeneralizedTime, without what is below a microsecond. It is null if there is no such value: the
-- block has another tag, its contents octets are invalid, or none is there. A number beyond bigint and an OBJECT
-- IDENTIFIER are null too if they have more than 1,024 contents octets, and a text if the database cannot hold it. Only
-- this block is looked at.
CREATE FUNCTION der_integer(document bytea, "offset" int) RETURNS numeric
    AS 'MODULE_PATHNAME' LANGUAGE C IMMUTABLE STRICT PARALLEL SAFE COST 10;
CREATE FUNCTION der_text(document bytea, "offset" int) RETURNS text
    AS 'MODULE_PATHNAME' LANGUAGE C IMMUTABLE STRICT PARALLEL SAFE COST 10;
CREATE FUNCTION der_oid(document bytea, "offset" int) RETURNS text
    AS 'MODULE_PATHNAME' LANGUAGE C IMMUTABLE STRICT PARALLEL SAFE COST 10;
CREATE FUNCTION der_time(document bytea, "offset" int) RETURNS timestamptz
    AS 'MODULE_PATHNAME' LANGUAGE C IMMUTABLE STRICT PARALLEL SAFE COST 10;

-- The contents octets of the block at an offset, whatever they are. It is null if none is there.
CREATE FUNCTION der_contents(document bytea, "offset" int) RETURNS bytea
    AS 'MODULE_PATHNAME' LANGUAGE C IMMUTABLE STRICT PARALLEL SAFE COST 10;

-- The canonical bytes of a document. They are not always DER: a BIT STRING of no bits is 03 00, where DER has 03 01 00.
-- Bytes that are no document are an error that tells the offset.
CREATE FUNCTION der_rewrite(document bytea) RETURNS bytea
    AS 'MODULE_PATHNAME' LANGUAGE C IMMUTABLE STRICT PARALLEL SAFE COST 500;

-- Why the bytes are no document, or strictly no document in canonical form, and the offset of the block at fault. It is
-- null if they are one.
CREATE FUNCTION der_fault(document bytea, strict bool DEFAULT false, OUT fault text, OUT "offset" int)
    AS 'MODULE_PATHNAME' LANGUAGE C IMMUTABLE STRICT PARALLEL SAFE COST 500;

-- The fields of the certificate that the bytes begin with (RFC 5280, section 4.1). It is null if they begin with something
-- else. Names, the key, the extensions and what was signed are DER, as it stands in the certificate; the extensions are
-- their SEQUENCE, or null if there are none. The version is the number that stands there: 2 is v3. Numbers and OBJECT
-- IDENTIFIERs of more than 1,024 contents octets are null. No signature, chain, moment or purpose is
-- checked.
CREATE FUNCTION der_certificate(document bytea, OUT serial_number numeric, OUT issuer bytea, OUT subject bytea,
                                OUT not_before timestamptz, OUT not_after timestamptz, OUT version numeric,
                                OUT public_key_algorithm text, OUT subject_public_key_info bytea,
                                OUT extensions bytea, OUT signature_algorithm text, OUT signature bytea,
                                OUT tbs_certificate bytea)
    AS 'MODULE_PATHNAME' LANGUAGE C IMMUTABLE STRICT PARALLEL SAFE COST 1000;
