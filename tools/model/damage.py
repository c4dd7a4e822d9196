"""Damaged jobs: random jobs with any bytes in any place, and floods."""
from model.jobs import some_job
from model.epochs import LARGEST_JOB

FLOODS = b"?!~\x18\x85X\x00\r (;)$0\xff\x7fG\n"  # each a job of 16 MB, or less; and then any other byte
FEWER = {b"\n": 500_000, b"?": 1_000_000, b"\x18": 20_000}  # since each is a line, may have a report, or begins an epoch
REALTIME = b"?!~\x85\x90\x91\x92\x93\x94\x95\x96\x97\x98\x99\x9a\x9b\x9c\x9d\x9e"
PIECES = (b"?", b"!", b"~", b"\x18", b"\x85", b"\0", b"\r", b" ", b"\t", b"(", b";", b")", b"$", b"/", b"\n", b"0", b"X",
          b"\r\n", b"G0X0.01\n", b"\n\r", b"\xc3\xa9", b"\xe2\x88\x92", b"\xef\xbb\xbf", b"\xf0\x9f\x94\xa9", b"\xff", b"\x7f",
          b"(\n", b";\n", b"$$\n", b"M2\n", b"?\n", b"$10=2\n",
          b"$J=G91X.01F99\n", b"$J=G91X1F500\n\x85\n", b"$J=G91Y-.5F99\n!\n", b"$20=1\n", b"G53G0X.1\n", b"G4P0\n$20=1\nG53G0X-.5\nX.1\n")
ALPHABETS = (bytes(range(256)), bytes(range(32, 127)) + b"\n", b"GXYZMFS0123456789.-+\n\n ", b"GM0123\nXYZ.", b"$=0123\n#GXJF",
             b"()?!~;\n\r\0 X1")
ROOM = (78, 79, 80, 81, 126, 127, 128, 129, 255, 256, 4_095, 4_096, 4_097, 20_000)


def some_bytes(chance, most):
    alphabet = chance.choice(ALPHABETS)
    return bytes(chance.choices(alphabet, k=chance.randint(0, most)))


def put(chance, job, piece):
    at = chance.randint(0, len(job))
    return job[:at] + piece + job[at:]


def a_slice(chance, job, most):
    first = chance.randint(0, len(job))
    return first, min(len(job), first + chance.randint(0, most))


# ---- what is done to a job


def strew(chance, job):
    """Realtime bytes anywhere, each alone; and now and then a reset."""
    for _ in range(chance.choice((1, 3, 10, 100))):
        job = put(chance, job, bytes([chance.choice(REALTIME)]))
    return put(chance, job, b"\x18") if chance.random() < 0.3 else job


def put_bytes(chance, job):
    return put(chance, job, some_bytes(chance, 20))


def put_flood(chance, job):
    return put(chance, job, chance.choice(PIECES) * chance.choice((1, 1, 2, 3, 10, *ROOM)))


def turn_byte(chance, job):
    first, behind = a_slice(chance, job, 1)
    return job[:first] + bytes(byte ^ 1 << chance.randrange(8) for byte in job[first:behind]) + job[behind:]


def lose_slice(chance, job):
    first, behind = a_slice(chance, job, 30)
    return job[:first] + job[behind:]


def double_slice(chance, job):
    first, behind = a_slice(chance, job, 200)
    return put(chance, job, job[first:behind])


def cut_short(chance, job):
    return job[: chance.randint(0, len(job))]


def join_lines(chance, job):
    first, behind = a_slice(chance, job, chance.choice((40, 400, len(job))))
    return job[:first] + job[first:behind].replace(b"\n", chance.choice((b"", b" ", b"\r", b"\0"))) + job[behind:]


def set_high_bits(chance, job):
    first, behind = a_slice(chance, job, 10)
    return job[:first] + bytes(byte | 0x80 for byte in job[first:behind]) + job[behind:]


DAMAGES = (put_bytes, put_bytes, put_flood, put_flood, turn_byte, turn_byte, lose_slice, double_slice, cut_short, join_lines,
           set_high_bits, strew, strew)


def flood(chance, number):
    """About 16 MB of one byte: just a job, or a byte too many, alone or between lines; or less where each costs more."""
    byte = bytes([FLOODS[number] if number < len(FLOODS) else chance.randrange(256)])
    size = LARGEST_JOB + chance.choice((-8, 0, 0, 1, 1, 5_000))
    before, behind = chance.choice(((b"", b""), (b"G0X0.004\n", b""), (b"(", b"\nG0X0.004\n"), (b"M3S5\n", b"\n")))
    if byte == b"\n" or before != b"(":
        size = FEWER.get(byte, size)
    return before + byte * (size - len(before) - len(behind)) + behind


def damaged_job(chance, number):
    """The job of a number. Few are floods of 16 MB, since each takes a second or more."""
    if number % FLOOD_EVERY == 0:
        return flood(chance, number // FLOOD_EVERY)
    if chance.random() < 0.2:
        return some_bytes(chance, chance.choice((10, 100, 3_000, 30_000)))
    job = some_job(chance)
    for _ in range(chance.randint(1, 8)):
        job = chance.choice(DAMAGES)(chance, job)
    return job


FLOOD_EVERY = 50
