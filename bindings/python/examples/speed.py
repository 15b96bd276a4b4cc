"""What a message costs, sent and received, in microseconds, beside the queues of `queue`.

A queue keeps no journal. A queue "with a journal" appends each call to a list, under a lock. A
line has the workload, the way and three figures, two spaces apart at least: the time that went
by, the processor's time, and the least time that went by in a round. The first two are medians
of the rounds, in which all take turns. Name another count of rounds as the first word.
"""

import queue
import statistics
import sys
import threading
import time

from seryugo import Switchboard

MESSAGES = 1_000
TURNS = 200


class WithJournal:
    """A queue with a journal of its calls, which has one thread that gets.

    A message's put comes before its get in the list. With several threads that get, their
    entries could come in another order than the messages.
    """

    def __init__(self, line):
        """Keep the journal of this queue."""
        self.line = line
        self.lock = threading.Lock()
        self.journal = []

    def put(self, message):
        """Append the call and put the message, so that both have one order."""
        with self.lock:
            self.journal.append((threading.get_ident(), "put", message))
            self.line.put(message)

    def get(self):
        """Wait for a message, and then append the call."""
        message = self.line.get()
        with self.lock:
            self.journal.append((threading.get_ident(), "get", message))
        return message

    def cut(self):
        """Forget the journal."""
        with self.lock:
            self.journal.clear()


QUEUES = {
    "queue.Queue": queue.Queue,
    "queue.SimpleQueue": queue.SimpleQueue,
    "queue.Queue, journal": lambda: WithJournal(queue.Queue()),
    "queue.SimpleQueue, journal": lambda: WithJournal(queue.SimpleQueue()),
}


def cut(line):
    """Forget the journal of a queue that has one."""
    if isinstance(line, WithJournal):
        line.cut()


def one_thread(board, of, message):
    """Send and receive by one seat."""
    seat = board.seat()
    mailbox = seat.mailbox(of)

    def run():
        for _ in range(MESSAGES):
            seat.send(mailbox, message)
            seat.recv(mailbox)
        board.cut()

    return run, [seat]


def one_thread_by(line, message):
    """Put and get by one thread."""

    def run():
        for _ in range(MESSAGES):
            line.put(message)
            line.get()
        cut(line)

    return run


def there_and_back(board):
    """Two threads that answer each other: what a message costs that wakes a thread."""
    seats = board.seat(), board.seat()
    there, back = seats[0].mailbox(int), seats[0].mailbox(int)

    def answer():
        for _ in range(TURNS):
            seats[1].send(back, seats[1].recv(there))

    def run():
        thread = threading.Thread(target=answer)
        thread.start()
        for number in range(TURNS):
            seats[0].send(there, number)
            seats[0].recv(back)
        thread.join()
        board.cut()

    return run, seats


def there_and_back_by(there, back):
    """Do the same by two queues."""

    def answer():
        for _ in range(TURNS):
            back.put(there.get())

    def run():
        thread = threading.Thread(target=answer)
        thread.start()
        for number in range(TURNS):
            there.put(number)
            back.get()
        thread.join()
        cut(there)
        cut(back)

    return run


def all_runs(board):
    """Return each run by its workload and its way, and all seats."""
    runs = {}
    seats = []
    messages = {"bytes": b"hello, world", "str": "hello, world", "int": 5, "100 bytes": b"x" * 100}
    for name, message in messages.items():
        runs["in Python, one thread", name], more = one_thread(board, type(message), message)
        seats.extend(more)
    for name, make in QUEUES.items():
        runs["in Python, one thread", name] = one_thread_by(make(), "hello, world")
    runs["in Python, a turn", "int"], more = there_and_back(board)
    seats.extend(more)
    for name, make in QUEUES.items():
        runs["in Python, a turn", name] = there_and_back_by(make(), make())
    return runs, seats


def timed(run):
    """Return the time that goes by and the processor's time, in microseconds."""
    before = time.perf_counter(), time.process_time()
    run()
    after = time.perf_counter(), time.process_time()
    return [(end - start) * 1e6 for start, end in zip(before, after)]


def main():
    """Print the lines."""
    rounds = int(sys.argv[1]) if len(sys.argv) > 1 else 100
    board = Switchboard(1_000_000)
    runs, seats = all_runs(board)
    times = {name: [] for name in runs}
    for _ in range(rounds):
        for name, run in runs.items():
            count = MESSAGES if name[0].endswith("one thread") else TURNS
            times[name].append([each / count for each in timed(run)])
    for (workload, way), rows in times.items():
        passed, worked = zip(*rows)
        columns = statistics.median(passed), statistics.median(worked), min(passed)
        print(f"{workload:28}  {way:26}" + "".join(f"  {column:9.2f}" for column in columns))
    for seat in seats:
        seat.leave()


if __name__ == "__main__":
    main()
