"""A program that runs beside the test and tells things line by line."""

import subprocess
import threading
import time

from checks import Failure


class Program:
    """A running program. A subclass takes its lines, each with the moment in which it was read."""

    def __init__(self, words, stderr=None):
        self.news, self.is_over = threading.Condition(), False
        self.process = subprocess.Popen(words, stdin=subprocess.PIPE, stdout=subprocess.PIPE, stderr=stderr)
        self.reader = threading.Thread(target=self.read, daemon=True)
        self.reader.start()

    def __enter__(self):
        return self

    def __exit__(self, *_):
        self.kill()

    def take(self, moment, line):
        """A line of the program's."""
        raise NotImplementedError

    def read(self):
        """Takes lines until there are no more."""
        for line in self.process.stdout:
            moment = time.monotonic()
            with self.news:
                self.take(moment, line)
                self.news.notify_all()
        with self.news:
            self.is_over = True
            self.news.notify_all()

    def await_news(self, found, seconds, what):
        """What `found` gives once that is not None, within these seconds."""
        end = time.monotonic() + seconds
        with self.news:
            while (thing := found()) is None:
                left = end - time.monotonic()
                if left <= 0 or self.is_over:
                    raise Failure(f"{what}: not {f'within {seconds:.2f} s' if left <= 0 else 'before it ended'}")
                self.news.wait(left)
            return thing

    def kill(self):
        """Ends it at once, and reads what it told until then."""
        self.process.kill()
        self.over(5)

    def over(self, seconds):
        """Waits for its end and its last line: the number that it ended with."""
        number = self.process.wait(timeout=seconds)
        self.reader.join(timeout=5)
        self.process.stdin.close()
        return number
