-- The tables of 'worker': which meters there are, who polls them now, what they gave, and two views for the operator.
--     createdb fleet && psql fleet -f schema.sql

-- A line of a list of 'dlms collect', and how its polls went. The checks keep everything out that would break a line of the list. A file that the
-- options name must be on every machine with a worker.
CREATE TABLE meter (
    name text PRIMARY KEY CHECK (name ~ '^[A-Za-z0-9_-][A-Za-z0-9_.-]{0,199}$'),
    place text NOT NULL CHECK (place ~ '^[!-~]+$'),
    options text NOT NULL DEFAULT '' CHECK (options ~ '^([a-z-]+=[!-~]+( [a-z-]+=[!-~]+)*)?$'),
    every interval NOT NULL DEFAULT '15 minutes' CHECK (every > '0'),
    added timestamptz NOT NULL DEFAULT now(),
    next_due timestamptz NOT NULL DEFAULT now(),
    -- A claim ends when its poll is recorded, or at claimed_until: then another worker may claim the meter.
    claimed_by text,
    claimed_at timestamptz,
    claimed_until timestamptz,
    -- When the last finished poll was claimed: every capture that the meter had by then is in 'reading'.
    last_done timestamptz,
    -- The polls that failed since then, and the fault of the last one.
    failures integer NOT NULL DEFAULT 0,
    last_fault text
);
CREATE INDEX ON meter (next_due);

-- A capture: the meter's clock in seconds from 2000-01-01 on, and the registers 1.0.1.8.0, 1.0.2.8.0 and 1.0.3.8.0. There is no foreign key: the
-- readings of a meter stay after it is deleted, and rows of a deleted meter can still be loaded.
CREATE TABLE reading (
    meter text NOT NULL,
    clock bigint NOT NULL,
    import bigint NOT NULL,
    export bigint NOT NULL,
    reactive bigint NOT NULL,
    PRIMARY KEY (meter, clock)
);

-- The meters without a finished poll for twice the time that they are polled in, and by how much the next one is overdue.
CREATE VIEW late AS
SELECT name, place, last_done, now() - coalesce(last_done, added) - every AS late_by, failures, last_fault
FROM meter
WHERE coalesce(last_done, added) + 2 * every < now()
ORDER BY late_by DESC;

-- The meters whose last poll failed.
CREATE VIEW failed AS
SELECT name, place, failures, last_fault, last_done
FROM meter
WHERE failures > 0
ORDER BY failures DESC, name;
