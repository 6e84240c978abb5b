"""watch.py FILE PROGRAM WORD..: runs the program, and writes to FILE its status, its greatest memory in KB and its milliseconds of
processor time.

The three standard streams are those of this process, closed ones too. The stack has 256 KB, so that what recurses on a length of an
input or a history ends by a signal. Where WATCHED_AS is the number of a user, that user runs the program. What this process takes, some
8,600 KB, is the least memory that is told.
"""

import os
import resource
import sys

told, program, *words = sys.argv[1:]
resource.setrlimit(resource.RLIMIT_STACK, (256 * 1024, resource.getrlimit(resource.RLIMIT_STACK)[1]))
if "WATCHED_AS" not in os.environ:
    child = os.posix_spawn(program, [program, *words], os.environ)
else:
    child = os.fork()
    if not child:
        os.setgroups([])
        os.setgid(int(os.environ["WATCHED_AS"]))
        os.setuid(int(os.environ["WATCHED_AS"]))
        os.execv(program, [program, *words])
_, status, used = os.wait4(child, 0)
with open(told, "w") as file:
    file.write(f"{os.waitstatus_to_exitcode(status)} {used.ru_maxrss} {1000 * (used.ru_utime + used.ru_stime):.0f}\n")
