-- The errors of each client, counted by DuckDB, ClickHouse and Spark, over many files of objects: krbls capture --json F > F.jsonl
-- The engines read files side by side. They are told the columns, since kinds have different members: what an object does not have
-- is null, and what is not named is passed over. No test runs these.
--
-- In the schema              DuckDB                               ClickHouse                              Spark
-- integer from 0, a count    UBIGINT                              Nullable(UInt64)                        DECIMAL(20)
-- any other integer          BIGINT                               Nullable(Int64)                         BIGINT
-- string                     VARCHAR                              Nullable(String)                        STRING
-- boolean                    BOOLEAN                              Nullable(Bool)                          BOOLEAN
-- array                      BIGINT[], VARCHAR[]                  Array(Int64), Array(Nullable(String))   ARRAY<BIGINT>, ARRAY<STRING>
-- object                     STRUCT(text VARCHAR, realm VARCHAR)  Nullable(String), for JSONExtract       STRUCT<text: STRING, realm: STRING>
--
-- A time is a string, and the order of the texts is that of the times.

-- DuckDB
select client.text, code_name, count(*) from read_json('trace-*.jsonl', format = 'newline_delimited',
    columns = {kind: 'VARCHAR', t: 'VARCHAR', packet: 'BIGINT', code_name: 'VARCHAR', client: 'STRUCT(text VARCHAR, realm VARCHAR)'})
where kind = 'KRB-ERROR' group by all;

-- ClickHouse
select JSONExtractString(client, 'text') as who, code_name, count() from file('trace-*.jsonl', JSONEachRow,
    'kind String, t Nullable(String), packet Nullable(Int64), code_name Nullable(String), client Nullable(String)')
where kind = 'KRB-ERROR' group by who, code_name
settings input_format_json_read_objects_as_strings = 1, input_format_skip_unknown_fields = 1;

-- Spark
create temporary view record (kind STRING, t STRING, packet BIGINT, code_name STRING, client STRUCT<text: STRING, realm: STRING>)
using json options (path 'trace-*.jsonl');
select client.text, code_name, count(*) from record where kind = 'KRB-ERROR' group by all;
