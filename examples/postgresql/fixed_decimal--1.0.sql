\echo Use "CREATE EXTENSION fixed_decimal" to load this file. \quit

-- What the program fixdec prints for these words: fixdec('1234.565', 'round:-2:half-even:1', 'format:de') is 1.234,56.
CREATE FUNCTION fixdec(number text, VARIADIC words text[] DEFAULT '{}') RETURNS text
    LANGUAGE C IMMUTABLE STRICT PARALLEL SAFE AS 'MODULE_PATHNAME', 'fixdec_text';
CREATE FUNCTION fixdec(number numeric, VARIADIC words text[] DEFAULT '{}') RETURNS text
    LANGUAGE C IMMUTABLE STRICT PARALLEL SAFE AS 'MODULE_PATHNAME', 'fixdec_numeric';

-- A number by a number skeleton of ICU: format_number('de', 'currency/EUR', 1234.5) is 1.234,50 €.
CREATE FUNCTION format_number(locale text, skeleton text, number numeric) RETURNS text
    LANGUAGE C IMMUTABLE STRICT PARALLEL SAFE AS 'MODULE_PATHNAME';

-- A number by options of ECMA-402: format_number('de', ARRAY['style', 'unit', 'unit', 'kilometer'], 5) is 5 km.
CREATE FUNCTION format_number(locale text, options text[], number numeric) RETURNS text
    LANGUAGE C IMMUTABLE STRICT PARALLEL SAFE AS 'MODULE_PATHNAME', 'format_number_by_options';

-- The number of a text that format_number has written: read_number('de', 'currency/EUR', '1.234,50 €') is 1234.50.
CREATE FUNCTION read_number(locale text, skeleton text, number text) RETURNS numeric
    LANGUAGE C IMMUTABLE STRICT PARALLEL SAFE AS 'MODULE_PATHNAME';

CREATE FUNCTION read_number(locale text, options text[], number text) RETURNS numeric
    LANGUAGE C IMMUTABLE STRICT PARALLEL SAFE AS 'MODULE_PATHNAME', 'read_number_by_options';

-- The plural category by a locale, its ordinal rules or a text of rules: plural('ru', 2) is few.
CREATE FUNCTION plural(locale_or_rules text, number numeric) RETURNS text
    LANGUAGE C IMMUTABLE STRICT PARALLEL SAFE AS 'MODULE_PATHNAME';
