# measured.py INPUT WORD ..: runs a command on an input, and prints its seconds and the megabytes that it held at most.
import os, sys, time
begin = time.monotonic()
child = os.fork()
if child == 0:
    os.dup2(os.open(sys.argv[1], os.O_RDONLY), 0)
    os.dup2(2, 1)
    os.execvp(sys.argv[2], sys.argv[2:])
status, usage = os.wait4(child, 0)[1:]
print('%.3f %.0f' % (time.monotonic() - begin, usage.ru_maxrss / 1000))
sys.exit(status != 0)
