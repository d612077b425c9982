-- The tables and indexes of the first schema, in the order in which its files were made.
CREATE TABLE meta (id INTEGER NOT NULL PRIMARY KEY, schema INTEGER NOT NULL) STRICT;
CREATE TABLE caller (name TEXT NOT NULL PRIMARY KEY, settled INTEGER NOT NULL) STRICT;
CREATE TABLE kept (caller TEXT NOT NULL REFERENCES caller (name), number INTEGER NOT NULL, command TEXT NOT NULL, status INTEGER NOT NULL, body TEXT NOT NULL, PRIMARY KEY (caller, number)) STRICT;
CREATE TABLE template (name TEXT NOT NULL PRIMARY KEY, spec TEXT NOT NULL) STRICT;
CREATE TABLE service (name TEXT NOT NULL PRIMARY KEY, spec TEXT NOT NULL, stable TEXT NOT NULL, version TEXT NOT NULL, state INTEGER NOT NULL, step INTEGER NOT NULL, entered INTEGER NOT NULL, hold INTEGER NOT NULL, background INTEGER NOT NULL, runs INTEGER NOT NULL, last INTEGER NOT NULL) STRICT;
CREATE TABLE run (service TEXT NOT NULL REFERENCES service (name), number INTEGER NOT NULL, step INTEGER, started INTEGER NOT NULL, closed INTEGER, outside INTEGER NOT NULL, verdict INTEGER NOT NULL, PRIMARY KEY (service, number)) STRICT;
CREATE TABLE tally (service TEXT NOT NULL, run INTEGER NOT NULL, metric INTEGER NOT NULL, counted INTEGER NOT NULL, failed INTEGER NOT NULL, inconclusive INTEGER NOT NULL, errors INTEGER NOT NULL, consecutive INTEGER NOT NULL, last INTEGER, PRIMARY KEY (service, run, metric)) STRICT;
CREATE TABLE measurement (place INTEGER PRIMARY KEY AUTOINCREMENT, service TEXT NOT NULL, run INTEGER NOT NULL, metric INTEGER NOT NULL, ordinal INTEGER NOT NULL, taken INTEGER NOT NULL, phase INTEGER NOT NULL, outcome TEXT NOT NULL, UNIQUE (service, run, metric, ordinal)) STRICT;
CREATE TABLE history (place INTEGER PRIMARY KEY AUTOINCREMENT, service TEXT NOT NULL, moment INTEGER NOT NULL, line TEXT NOT NULL) STRICT;
CREATE INDEX run_closed ON run (service, closed);
CREATE INDEX measurement_service ON measurement (service);
CREATE INDEX history_service ON history (service);
