-- Views over a journal, for sqlite3. They are temporary, so the file stays as it is:
--
--     sqlite3 -readonly COPY.db -init crates/ibc_journal/journal.sql
--
-- Numbers in messages and answers are big-endian bytes. A byte's value is its place among all bytes (`octets`). Numbers of 8 bytes from
-- 2^63 on show as negative ones. An amount that 63 bits don't hold shows as its 16 bytes in hex.

CREATE TEMP VIEW octets(all_of) AS SELECT x'000102030405060708090a0b0c0d0e0f101112131415161718191a1b1c1d1e1f202122232425262728292a2b2c2d2e2f303132333435363738393a3b3c3d3e3f404142434445464748494a4b4c4d4e4f505152535455565758595a5b5c5d5e5f606162636465666768696a6b6c6d6e6f707172737475767778797a7b7c7d7e7f808182838485868788898a8b8c8d8e8f909192939495969798999a9b9c9d9e9fa0a1a2a3a4a5a6a7a8a9aaabacadaeafb0b1b2b3b4b5b6b7b8b9babbbcbdbebfc0c1c2c3c4c5c6c7c8c9cacbcccdcecfd0d1d2d3d4d5d6d7d8d9dadbdcdddedfe0e1e2e3e4e5e6e7e8e9eaebecedeeeff0f1f2f3f4f5f6f7f8f9fafbfcfdfeff';

-- the numbers and names of messages, and of refusals
CREATE TEMP VIEW message_kinds(tag, message) AS VALUES
  (1, 'CreateClient'), (2, 'UpdateClient'), (3, 'ConnOpenInit'), (4, 'ConnOpenTry'), (5, 'ConnOpenAck'), (6, 'ConnOpenConfirm'),
  (7, 'ChanOpenInit'), (8, 'ChanOpenTry'), (9, 'ChanOpenAck'), (10, 'ChanOpenConfirm'), (11, 'ChanCloseInit'), (12, 'ChanCloseConfirm'),
  (13, 'Transfer'), (14, 'SendNote'), (15, 'RecvPacket'), (16, 'AckPacket'), (17, 'Timeout'), (18, 'TimeoutOnClose'), (19, 'TransferMany');

CREATE TEMP VIEW refusal_names(number, refusal) AS VALUES
  (1, 'no memory'), (2, 'bad name'), (3, 'unknown chain'), (4, 'own chain'), (5, 'unknown client'), (6, 'not published'),
  (7, 'wrong header'), (8, 'unknown connection'), (9, 'wrong state'), (10, 'wrong peer'), (11, 'no consensus state'), (12, 'bad proof'),
  (13, 'wrong self client'), (14, 'unknown port'), (15, 'unknown channel'), (16, 'wrong order'), (17, 'wrong version'), (18, 'no timeout'),
  (19, 'timeout passed'), (20, 'already received'), (21, 'out of order'), (22, 'no commitment'), (23, 'not timed out'), (24, 'too large'),
  (25, 'poor'), (26, 'close refused'), (27, 'time goes back'), (28, 'table full'), (29, 'number full'), (30, 'bad message'),
  (31, 'pruned');

-- each entry: what it asked, and how it was answered. `effect` is the tag of what an accepted event gave, and `refusal` the number of a refusal
CREATE TEMP VIEW answered AS
  SELECT place, chain, CASE kind WHEN 0 THEN 'Block' ELSE message END AS event_kind,
    substr(answer, 1, 1) = x'01' AS accepted,
    CASE WHEN substr(answer, 1, 1) = x'01' THEN instr(all_of, substr(answer, 2, 1)) - 1 END AS effect,
    CASE WHEN substr(answer, 1, 1) = x'02' THEN instr(all_of, substr(answer, 2, 1)) - 1 END AS refusal,
    kind, event, answer
  FROM entries, octets LEFT JOIN message_kinds ON kind = 1 AND tag = instr(all_of, substr(event, 1, 1)) - 1;

-- refusals by number: how many there were, and where the first and the last stand
CREATE TEMP VIEW refusals AS
  SELECT answered.refusal AS number, refusal_names.refusal AS refusal, event_kind, count(*) AS entries, min(place) AS first, max(place) AS last
  FROM answered JOIN refusal_names ON number = answered.refusal
  GROUP BY answered.refusal, event_kind;

-- committed blocks
CREATE TEMP VIEW blocks AS
  SELECT place, chain, (((instr(all_of, substr(answer, 3 + 0, 1)) - 1) << 56) | ((instr(all_of, substr(answer, 3 + 1, 1)) - 1) << 48) | ((instr(all_of, substr(answer, 3 + 2, 1)) - 1) << 40) | ((instr(all_of, substr(answer, 3 + 3, 1)) - 1) << 32) | ((instr(all_of, substr(answer, 3 + 4, 1)) - 1) << 24) | ((instr(all_of, substr(answer, 3 + 5, 1)) - 1) << 16) | ((instr(all_of, substr(answer, 3 + 6, 1)) - 1) << 8) | ((instr(all_of, substr(answer, 3 + 7, 1)) - 1) << 0)) AS height, (((instr(all_of, substr(event, 1 + 0, 1)) - 1) << 56) | ((instr(all_of, substr(event, 1 + 1, 1)) - 1) << 48) | ((instr(all_of, substr(event, 1 + 2, 1)) - 1) << 40) | ((instr(all_of, substr(event, 1 + 3, 1)) - 1) << 32) | ((instr(all_of, substr(event, 1 + 4, 1)) - 1) << 24) | ((instr(all_of, substr(event, 1 + 5, 1)) - 1) << 16) | ((instr(all_of, substr(event, 1 + 6, 1)) - 1) << 8) | ((instr(all_of, substr(event, 1 + 7, 1)) - 1) << 0)) AS next_time, lower(hex(substr(answer, 11, 32))) AS root
  FROM answered, octets WHERE kind = 0 AND accepted;

-- transfers of one denomination, with their parts one behind another
CREATE TEMP VIEW transfers AS
  WITH at_channel AS (
    SELECT place, chain, accepted, refusal, effect, answer, event, all_of, 2 AS i, (instr(all_of, substr(event, 2, 1)) - 1) * 256 + instr(all_of, substr(event, 2 + 1, 1)) - 1 AS n
    FROM answered, octets WHERE event_kind = 'Transfer'),
  at_user AS (
    SELECT *, CAST(substr(event, i + 2, n) AS TEXT) AS channel, i + 2 + n AS i2, (instr(all_of, substr(event, (i + 2 + n), 1)) - 1) * 256 + instr(all_of, substr(event, (i + 2 + n) + 1, 1)) - 1 AS n2 FROM at_channel),
  at_denom AS (
    SELECT *, CAST(substr(event, i2 + 2, n2) AS TEXT) AS user, i2 + 2 + n2 AS i3, (instr(all_of, substr(event, (i2 + 2 + n2), 1)) - 1) * 256 + instr(all_of, substr(event, (i2 + 2 + n2) + 1, 1)) - 1 AS n3 FROM at_user),
  at_amount AS (
    SELECT *, CAST(substr(event, i3 + 2, n3) AS TEXT) AS denom, i3 + 2 + n3 AS i4 FROM at_denom),
  at_receiver AS (
    SELECT *, i4 + 16 AS i5, (instr(all_of, substr(event, (i4 + 16), 1)) - 1) * 256 + instr(all_of, substr(event, (i4 + 16) + 1, 1)) - 1 AS n5 FROM at_amount),
  at_memo AS (
    SELECT *, CAST(substr(event, i5 + 2, n5) AS TEXT) AS receiver, i5 + 2 + n5 AS i6, (instr(all_of, substr(event, (i5 + 2 + n5), 1)) - 1) * 256 + instr(all_of, substr(event, (i5 + 2 + n5) + 1, 1)) - 1 AS n6 FROM at_receiver)
  SELECT place, chain, channel, user, denom,
    CASE WHEN substr(event, i4, 8) = x'0000000000000000' AND substr(event, i4 + 8, 1) < x'80' THEN (((instr(all_of, substr(event, (i4 + 8) + 0, 1)) - 1) << 56) | ((instr(all_of, substr(event, (i4 + 8) + 1, 1)) - 1) << 48) | ((instr(all_of, substr(event, (i4 + 8) + 2, 1)) - 1) << 40) | ((instr(all_of, substr(event, (i4 + 8) + 3, 1)) - 1) << 32) | ((instr(all_of, substr(event, (i4 + 8) + 4, 1)) - 1) << 24) | ((instr(all_of, substr(event, (i4 + 8) + 5, 1)) - 1) << 16) | ((instr(all_of, substr(event, (i4 + 8) + 6, 1)) - 1) << 8) | ((instr(all_of, substr(event, (i4 + 8) + 7, 1)) - 1) << 0))
      ELSE '0x' || lower(hex(substr(event, i4, 16))) END AS amount,
    receiver, CAST(substr(event, i6 + 2, n6) AS TEXT) AS memo, accepted,
    CASE WHEN accepted THEN (((instr(all_of, substr(answer, 3 + 0, 1)) - 1) << 56) | ((instr(all_of, substr(answer, 3 + 1, 1)) - 1) << 48) | ((instr(all_of, substr(answer, 3 + 2, 1)) - 1) << 40) | ((instr(all_of, substr(answer, 3 + 3, 1)) - 1) << 32) | ((instr(all_of, substr(answer, 3 + 4, 1)) - 1) << 24) | ((instr(all_of, substr(answer, 3 + 5, 1)) - 1) << 16) | ((instr(all_of, substr(answer, 3 + 6, 1)) - 1) << 8) | ((instr(all_of, substr(answer, 3 + 7, 1)) - 1) << 0)) END AS sequence, refusal
  FROM at_memo;

-- accepted messages that send: from which end, and with which sequence
CREATE TEMP VIEW sent AS
  SELECT place, chain, CASE event_kind WHEN 'SendNote' THEN 'note' ELSE 'transfer' END AS port,
    CAST(substr(event, 4, (instr(all_of, substr(event, 2, 1)) - 1) * 256 + instr(all_of, substr(event, 2 + 1, 1)) - 1) AS TEXT) AS channel, (((instr(all_of, substr(answer, 3 + 0, 1)) - 1) << 56) | ((instr(all_of, substr(answer, 3 + 1, 1)) - 1) << 48) | ((instr(all_of, substr(answer, 3 + 2, 1)) - 1) << 40) | ((instr(all_of, substr(answer, 3 + 3, 1)) - 1) << 32) | ((instr(all_of, substr(answer, 3 + 4, 1)) - 1) << 24) | ((instr(all_of, substr(answer, 3 + 5, 1)) - 1) << 16) | ((instr(all_of, substr(answer, 3 + 6, 1)) - 1) << 8) | ((instr(all_of, substr(answer, 3 + 7, 1)) - 1) << 0)) AS sequence
  FROM answered, octets WHERE effect = 5;

-- accepted messages that carry a packet: the end that sent it, and its sequence
CREATE TEMP VIEW carried AS
  WITH at_port AS (
    SELECT place, chain, event_kind, event, all_of, (((instr(all_of, substr(event, 2 + 0, 1)) - 1) << 56) | ((instr(all_of, substr(event, 2 + 1, 1)) - 1) << 48) | ((instr(all_of, substr(event, 2 + 2, 1)) - 1) << 40) | ((instr(all_of, substr(event, 2 + 3, 1)) - 1) << 32) | ((instr(all_of, substr(event, 2 + 4, 1)) - 1) << 24) | ((instr(all_of, substr(event, 2 + 5, 1)) - 1) << 16) | ((instr(all_of, substr(event, 2 + 6, 1)) - 1) << 8) | ((instr(all_of, substr(event, 2 + 7, 1)) - 1) << 0)) AS sequence, (instr(all_of, substr(event, 26, 1)) - 1) * 256 + instr(all_of, substr(event, 26 + 1, 1)) - 1 AS n
    FROM answered, octets
    WHERE accepted AND event_kind IN ('RecvPacket', 'AckPacket', 'Timeout', 'TimeoutOnClose')),
  at_channel AS (
    SELECT *, CAST(substr(event, 28, n) AS TEXT) AS port, 28 + n AS i2, (instr(all_of, substr(event, (28 + n), 1)) - 1) * 256 + instr(all_of, substr(event, (28 + n) + 1, 1)) - 1 AS n2 FROM at_port)
  SELECT place, chain, event_kind, port, CAST(substr(event, i2 + 2, n2) AS TEXT) AS channel, sequence FROM at_channel;

-- packets by the end that sent them, and what has become of them there. Receipts stand on another chain: they are in `carried`
CREATE TEMP VIEW packets AS
  SELECT sent.chain, sent.port, sent.channel, sent.sequence, sent.place AS sent_at,
    CASE WHEN carried.place IS NULL THEN 'in flight' WHEN event_kind = 'AckPacket' THEN 'acknowledged' ELSE 'timed out' END AS became,
    carried.place AS settled_at
  FROM sent LEFT JOIN carried ON carried.event_kind <> 'RecvPacket' AND carried.chain = sent.chain AND carried.port = sent.port
    AND carried.channel = sent.channel AND carried.sequence = sent.sequence;
