-- Document 01's session as a hearing: the clerk's house, Anna with the list of names, Ben with page 1.
.mode list
.separator ' '
INSERT INTO hearing(title, house) VALUES ('The session of document 01', 'clerk');
INSERT INTO step(step, who) VALUES (ledger_pack('root text 7'), 'clerk'), (ledger_pack('root text 8'), 'clerk');
INSERT INTO take(take, name, owner, who) VALUES (0, 'names', 'anna', 'clerk'), (1, 'page 1', 'ben', 'clerk');
INSERT INTO words(text, speaker, words, who) VALUES
  (9, 'the clerk', 'Mr Smith, Ms Jones', 'anna'), (10, 'Mr Smith', 'I was there.', 'ben');
INSERT INTO step(step, who) VALUES
  (ledger_pack('letter to 0 text 5'), 'clerk'),
  (ledger_pack('receive 0'), 'anna'),
  (ledger_pack('write 0 text 9'), 'anna'),
  (ledger_pack('send 0 to 1 text 9'), 'anna'),
  (ledger_pack('receive 1'), 'ben'),
  (ledger_pack('write 1 text 10'), 'ben'),
  (ledger_pack('freeze 1'), 'ben'),
  (ledger_pack('sign {1}'), 'ben'),
  (ledger_pack('freeze 0'), 'anna'),
  (ledger_pack('sign {0,1}'), 'clerk'),
  (ledger_pack('fail 0'), 'anna');
.print The log:
SELECT number, step, '#', reply, '(' || who || ')' FROM log;
.print
.print Pages by speaker:
SELECT speaker || ':', words, '(' || name || ',', iif(signed, 'signed)', 'not signed)') FROM pages;
.print
.print The check, and the sum for the printed record:
SELECT iif(holds, 'holds,', 'FAULT'), steps, 'steps, sum', substr(sum, 1, 16) || '..' FROM hearing_check;
.print
.print The replies as document 01 prints them:
.once replies.txt
SELECT s.number, p.outcome, p.take, p.parcel, p.text FROM step s JOIN (
  SELECT place + 1 AS number, outcome, take, parcel, text FROM hearing h,
    ledger_play(ledger_begin(h.takes, h.parcels, h.signings), (SELECT ledger_list(number, step) FROM step))
) p USING (number);
