"""The door: one process between the world and a registry with its replicas.

- `sockets` has all of them in one set, beside those of the event loop; `wire` lets clients in, and
  sends what they take.
- `listener` and `http` take connections and hold slow clients; nothing behind them waits for a
  client.
- `dialects` tells by a line which dialect answers it: the registry's own, `irrd` or `ripe`. Both
  ask by `queries` alone.
- `queries` gives whole answers: a kept one (`cache`), one that is being asked, or a new one of the
  `pool`.
- `pool` gives each upstream one request at a time, an `exchange`, read to its end before anybody
  gets a byte of it.
- `budget` says whose turn it is: who has used least of the registry's seconds; who has used up his
  waits, or is refused.
- A dear query leaves one replica free for cheap ones; what is dear is what was measured, not what a
  query is called.
- An answer is kept while its state lasts: until a submission through the door changed something, a
  replica was renewed, or `keep` seconds have passed, which bound what a change past the door can be
  late.
- `dumps` has few files of the public dump, `scheduler` parts long work: one piece in a turn of
  the loop.
- `nrtm` tells mirrors what changed, from the serials of the history; nobody else waits for it.
- `page` answers what the page asks: why a prefix is in a set, in slices between which others go
  first, and by git (`history`) what an object was.
- `submissions` go to the registry alone, one at a time; `journal` has a line an item; `status`
  tells all of it.
"""
