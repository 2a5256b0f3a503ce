"""cost.py COMMAND..: runs a command, ends as it does, and says what it cost: minutes, processor minutes of it and of all that it started, and the
most memory of one of these."""

import resource
import subprocess
import sys
import time

command = sys.argv[1:]
start = time.monotonic()
status = subprocess.run(command).returncode
minutes = (time.monotonic() - start) / 60
used = resource.getrusage(resource.RUSAGE_CHILDREN)
processor = (used.ru_utime + used.ru_stime) / 60
print(
    f"{' '.join(command)}: {minutes:.0f} minutes, {processor:.0f} processor minutes, "
    f"at most {used.ru_maxrss // 1024} MiB in one process",
    flush=True,
)
sys.exit(status if status >= 0 else 128 - status)
