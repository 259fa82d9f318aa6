"""timed.py COMMAND..: runs the command, and prints the seconds of processor time that it took, behind its output."""
import resource
import subprocess
import sys

ran = subprocess.run(sys.argv[1:], check=True)
used = resource.getrusage(resource.RUSAGE_CHILDREN)
print(used.ru_utime + used.ru_stime)
