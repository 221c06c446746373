"""What the scripts need of the machine: a deep stack, since terms and derivations nest deep."""
import sys
import threading

STACK = 512 * 1024 * 1024


def run_deep(main):
    """Runs this and ends with the status that it gives."""
    status = []
    sys.setrecursionlimit(1_000_000)
    threading.stack_size(STACK)
    thread = threading.Thread(target=lambda: status.append(main()))
    thread.start()
    thread.join()
    sys.exit(status[0] if status else 2)
