"""Runs a command and says what it took: measured.py STDOUT STDERR WORD... prints its exit status (of a signal: less than 0), the seconds, and the bytes of its peak memory. A process of its own, and a
small one: the peak of the process that starts a command counts as the command's."""
import os
import sys
import time

start = time.monotonic()
child = os.fork()
if child == 0:
    for stream, path in ((0, os.devnull), (1, sys.argv[1]), (2, sys.argv[2])):
        os.dup2(os.open(path, os.O_RDWR | (os.O_CREAT | os.O_TRUNC if stream else 0)), stream)
    os.execvp(sys.argv[3], sys.argv[3:])
_, status, used = os.wait4(child, 0)
print(os.WEXITSTATUS(status) if os.WIFEXITED(status) else -os.WTERMSIG(status), "%.2f" % (time.monotonic() - start), used.ru_maxrss * 1024)
