"""How a script runs a command for so many seconds at most, and how it ends where it is broken off. The command gets a
session of its own, which is killed where it is too late or the script is broken off, so that no child lives on."""
import os
import signal
import subprocess
import sys
import tempfile


def bounded(command, seconds, **more):
    """The status of a command, and all that it writes. The status is None where there was none in time."""
    with tempfile.TemporaryFile() as said:
        running = subprocess.Popen(command, stdin=subprocess.DEVNULL, stdout=said, stderr=subprocess.STDOUT, start_new_session=True, **more)
        try:
            status = running.wait(seconds)
        except subprocess.TimeoutExpired:
            status = None
        finally:
            if running.returncode is None:
                os.killpg(running.pid, signal.SIGKILL)
                running.wait()
        said.seek(0)
        return status, said.read().decode(errors="replace")


def end_with(main, name):
    """Runs a script, and ends it with its status, or with 130 and one line where Ctrl-C or SIGTERM breaks it off. SIGTERM
    is taken for Ctrl-C, since neither reaches a session of its own."""
    signal.signal(signal.SIGTERM, signal.default_int_handler)
    try:
        status = main()
    except KeyboardInterrupt:
        print(f"{name}: broken off", file=sys.stderr)
        status = 130
    sys.exit(status)
