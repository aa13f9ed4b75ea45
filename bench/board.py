"""Prints the nanoseconds of processor time that a publishing and a glance take, by the number of passes."""
import os
import sys

PROGRAM = sys.argv[1] if len(sys.argv) > 1 else "crates/desk_bench/out/desk_bench"
FEW, TIMES = 1_000, 5
MANY = {"publish": 501_000, "glance": 5_001_000}


def seconds(call, passes, rounds):
    """The processor time of one run, which what else the machine does disturbs little."""
    child = os.posix_spawn(
        PROGRAM,
        [PROGRAM, call, str(passes), str(rounds)],
        os.environ,
        file_actions=[(os.POSIX_SPAWN_OPEN, 1, os.devnull, os.O_WRONLY, 0)],
    )
    _, status, usage = os.wait4(child, 0)
    if status != 0:
        sys.exit(f"{PROGRAM} ended with {os.waitstatus_to_exitcode(status)}")
    return usage.ru_utime + usage.ru_stime


def nanoseconds_a_call(call, passes):
    few = min(seconds(call, passes, FEW) for _ in range(TIMES))
    many = min(seconds(call, passes, MANY[call]) for _ in range(TIMES))
    return (many - few) / (MANY[call] - FEW) * 1e9


print(" passes   publish   glance   (nanoseconds a call)")
for passes in (1, 16, 256):
    told = [nanoseconds_a_call(call, passes) for call in ("publish", "glance")]
    print(f"{passes:7}   {told[0]:7.0f}   {told[1]:6.0f}")
