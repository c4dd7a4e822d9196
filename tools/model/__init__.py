"""A model of the program that was written from docs/DIALECT.md, docs/MOTION.md and docs/STREAMING.md and shares no code
with it: what a job tells, records, and ends with. Beside it stand random jobs, and the trying of them on the program."""
