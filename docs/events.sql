-- Events of a store's file, for people: a row for each, by position from 0. With SQLite 3.38 or later:
--
--     sqlite3 -init docs/events.sql a.db "SELECT count(*) FROM events WHERE kind = 'commit'"
--
-- `kind` is the first word of an event's line in a history, `t` the transaction, `x` the object, `k` the place of the
-- operation or, of `busy` and `none`, of the call's first one, and `n` an operation's amount, the transaction for which a
-- `busy` waits, or how many operations a `rollback` takes back. What a kind doesn't have is NULL.
CREATE TEMP VIEW events (position, kind, t, x, k, n) AS
WITH RECURSIVE
    line (number, place, words, rest) AS (
        SELECT number, 0, NULL, lines FROM event
        UNION ALL
        SELECT number, place + 1,
               '["' || replace(substr(rest, 1, instr(rest, char(10)) - 1), ' ', '","') || '"]',
               substr(rest, instr(rest, char(10)) + 1)
        FROM line WHERE rest <> ''),
    word (number, place, kind, t, a, b, c) AS (
        SELECT number, place, json_extract(words, '$[0]'),
               CAST(json_extract(words, '$[2]') AS INTEGER), CAST(json_extract(words, '$[3]') AS INTEGER),
               CAST(json_extract(words, '$[4]') AS INTEGER), CAST(json_extract(words, '$[5]') AS INTEGER)
        FROM line WHERE place > 0)
SELECT row_number() OVER (ORDER BY number, place) - 1, kind, t,
       iif(kind = 'rollback', NULL, a), b, iif(kind = 'rollback', a, c)
FROM word;
