"""Tasks side by side."""
import threading

from tools.lib.commands import processors
from tools.lib.processes import available

# What a check takes at most, in bytes.
MEMORY_OF_A_CHECK = 4_096_000_000


class Lanes:
    """Runs tasks side by side, each once those that it waits for are done, those of the highest crates' foundations first."""

    def __init__(self, lanes):
        self.lanes, self.turn = lanes, threading.Condition()
        self.waiting, self.running, self.done = {}, set(), {}

    def add(self, key, waits, rank, call):
        self.waiting[key] = (waits, rank, call)

    def next(self):
        ready = [key for key, (waits, _, _) in self.waiting.items() if all(it in self.done for it in waits)]
        return min(ready, key=lambda key: self.waiting[key][1], default=None)

    def work(self):
        while True:
            with self.turn:
                while self.waiting and not self.next():
                    self.turn.wait()
                if not self.waiting:
                    return
                key = self.next()
                _, _, call = self.waiting.pop(key)
            result = None
            try:
                result = call(self.done)
            finally:
                with self.turn:
                    self.done[key] = result
                    self.turn.notify_all()

    def run(self):
        threads = [threading.Thread(target=self.work) for _ in range(self.lanes)]
        for it in threads:
            it.start()
        for it in threads:
            it.join()
        return self.done


def lanes_here():
    """How many checks run at a time: one for each processor, where there is enough free memory for each."""
    return max(1, min(processors(), available() // MEMORY_OF_A_CHECK))
