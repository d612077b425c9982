-- What makes tables of the first schema those of the second: five go, and six come.
DROP INDEX history_service;
DROP INDEX measurement_service;
DROP INDEX run_closed;
DROP TABLE template;
DROP TABLE tally;
CREATE TABLE revision (name TEXT NOT NULL, revision INTEGER NOT NULL, spec TEXT NOT NULL, PRIMARY KEY (name, revision)) STRICT;
CREATE TABLE binding (service TEXT NOT NULL REFERENCES service (name), run INTEGER NOT NULL, template TEXT NOT NULL, revision INTEGER NOT NULL, PRIMARY KEY (service, run, template)) STRICT;
CREATE TABLE tally (service TEXT NOT NULL, run INTEGER NOT NULL, metric INTEGER NOT NULL, counted INTEGER NOT NULL, failed INTEGER NOT NULL, inconclusive INTEGER NOT NULL, errors INTEGER NOT NULL, consecutive INTEGER NOT NULL, passes INTEGER NOT NULL, last INTEGER, PRIMARY KEY (service, run, metric)) STRICT;
CREATE INDEX run_closed ON run (service, closed);
CREATE INDEX measurement_service ON measurement (service);
CREATE INDEX history_service ON history (service);
