-- A registry of version 1: its root maintainer, the block of all AS numbers of two octets, and all addresses.
CREATE TABLE meta (name TEXT NOT NULL PRIMARY KEY, value TEXT NOT NULL) STRICT;
CREATE TABLE object (class INTEGER NOT NULL CHECK (class >= 1 AND class <= 7), okey TEXT NOT NULL, body BLOB NOT NULL, PRIMARY KEY (class, okey)) STRICT;
CREATE TABLE named (maintainer TEXT NOT NULL, class INTEGER NOT NULL, okey TEXT NOT NULL, PRIMARY KEY (maintainer, class, okey)) STRICT;
INSERT INTO meta VALUES ('version', '1');
INSERT INTO object VALUES (1, 'ROOT-MNT', CAST('mntner:         ROOT-MNT
auth:           SHA256-PW a:ba7816bf8f01cfea414140de5dae2223b00361a396177a9cb410ff61f20015ad
mnt-by:         ROOT-MNT
source:         TEST
' AS BLOB));
INSERT INTO object VALUES (2, '0000-ffff', CAST('as-block:       AS0 - AS65535
mnt-by:         ROOT-MNT
source:         TEST
' AS BLOB));
INSERT INTO object VALUES (4, '00000000-ffffffff', CAST('inetnum:        0.0.0.0 - 255.255.255.255
mnt-by:         ROOT-MNT
source:         TEST
' AS BLOB));
INSERT INTO named VALUES ('ROOT-MNT', 1, 'ROOT-MNT'), ('ROOT-MNT', 2, '0000-ffff'),
    ('ROOT-MNT', 4, '00000000-ffffffff');
