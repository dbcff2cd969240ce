"""Runs of the built program within a limit of memory, each with the processor time that it took."""
import os, pathlib, subprocess, tempfile, threading

TOP = pathlib.Path(__file__).resolve().parent.parent
PROGRAM = os.environ.get('RUMPSTEAK', TOP / 'crates/rumpsteak/out/rumpsteak')
MOST_SECONDS = 20


class Run:
    """A run on this input with so many MB of addresses, which is killed after 20 seconds. If a signal ended it, its status is
    below 0."""

    def __init__(self, words, data, megabytes):
        command = ['sh', '-c', f'ulimit -v {megabytes * 1024}; exec "$0" "$@"', PROGRAM, *words.split()]
        with tempfile.TemporaryFile() as inside, tempfile.TemporaryFile() as outside:
            inside.write(data)
            inside.seek(0)
            child = subprocess.Popen(command, stdin=inside, stdout=outside, stderr=subprocess.DEVNULL)
            watch = threading.Timer(MOST_SECONDS, os.kill, (child.pid, 9))
            watch.start()
            _, status, usage = os.wait4(child.pid, 0)
            watch.cancel()
            child.returncode = self.status = os.waitstatus_to_exitcode(status)
            outside.seek(0)
            self.output = outside.read()
        self.seconds = usage.ru_utime + usage.ru_stime
