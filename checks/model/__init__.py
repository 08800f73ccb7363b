"""A registry as plainly as its rules can be said: slow, in memory, and made to be compared with the
program.

It is written from the RFCs and the rules of docs/DEFINITIONS.md, and shares nothing with the
program. Texts are bytes."""
