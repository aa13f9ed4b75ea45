import os
import sys

PROGRAM = sys.argv[1] if len(sys.argv) > 1 else "crates/desk_bench/out/desk_bench"
FEW, MANY, TIMES = 1_000, 1_001_000, 5


def seconds(kind, room, rounds):
    """The processor time of one run, which what else the machine does disturbs little."""
    child = os.posix_spawn(
        PROGRAM,
        [PROGRAM, kind, str(room), str(rounds)],
        os.environ,
        file_actions=[(os.POSIX_SPAWN_OPEN, 1, os.devnull, os.O_WRONLY, 0)],
    )
    _, status, usage = os.wait4(child, 0)
    if status != 0:
        sys.exit(f"{PROGRAM} ended with {os.waitstatus_to_exitcode(status)}")
    return usage.ru_utime + usage.ru_stime


def nanoseconds_a_call(kind, room):
    few = min(seconds(kind, room, FEW) for _ in range(TIMES))
    many = min(seconds(kind, room, MANY) for _ in range(TIMES))
    return (many - few) / (2 * (MANY - FEW)) * 1e9


print("room   settle and add   remove and add   (nanoseconds a call)")
for room in (16, 256, 4096):
    settle = nanoseconds_a_call("settle", room)
    remove = nanoseconds_a_call("remove", room)
    print(f"{room:4}   {settle:14.0f}   {remove:14.0f}")
