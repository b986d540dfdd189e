"""What the broker waits for: one thread, and one function for each descriptor on which something may happen."""
import contextlib
import os
import select
import signal
import time

READ, WRITE = select.EPOLLIN, select.EPOLLOUT
# So often it looks for events before it sleeps, some 100 us in all, where another processor may bring them meanwhile: to
# sleep and be woken takes longer than an engine takes for an answer.
LOOKS = 100 if len(os.sched_getaffinity(0)) > 1 else 0


class Events:
    """The descriptors that are watched, with the function that is called for each: it is told what happened there.

    An end or a fault of a descriptor counts as both, so whoever waits for either learns of it.
    `now` is the time, in seconds, at which the last waiting ended.
    """

    def __init__(self):
        self.poll, self.calls, self.now = select.epoll(), {}, time.monotonic()

    def register(self, descriptor, mask, call):
        """Watches a descriptor."""
        self.poll.register(descriptor, mask)
        self.calls[descriptor] = call

    def modify(self, descriptor, mask):
        """Watches for something else."""
        self.poll.modify(descriptor, mask)

    def unregister(self, descriptor):
        """Watches a descriptor no more."""
        self.poll.unregister(descriptor)
        del self.calls[descriptor]

    def wait(self):
        """Waits until something happens, and calls what is to be called.

        A call may take away a descriptor of which an event is at hand, or let another have its number. So no call relies
        on an event: each reads and writes without waiting.
        """
        happened = self.look()
        self.now = time.monotonic()
        for descriptor, mask in happened:
            call = self.calls.get(descriptor)
            if call:
                call(mask)

    def look(self):
        """The events that are at hand, or else the next ones."""
        poll = self.poll.poll
        for _ in range(LOOKS):
            if happened := poll(0):
                return happened
        return poll()

    def close(self):
        """Ends the watching."""
        self.poll.close()


class Bell:
    """Ends the waiting and calls a function: from a signal's handler, and every so often while it is set to.

    One timer of the process does that: to wait for a limited time would set and clear a timer for each event.
    """

    def __init__(self, events, call):
        self.call, self.often = call, False
        self.hears, self.rings = os.pipe()
        os.set_blocking(self.rings, False)
        events.register(self.hears, READ, self.heard)
        signal.signal(signal.SIGALRM, self.ring)

    def ring(self, *_):
        """Ends the waiting."""
        # (where the pipe is full it was rung often enough)
        with contextlib.suppress(BlockingIOError):
            os.write(self.rings, b"!")

    def heard(self, _):
        """What is called when the bell was rung."""
        os.read(self.hears, 1 << 10)
        self.call()

    def every(self, seconds):
        """Rings every so many seconds from now on, or not at all where they are 0."""
        self.often = seconds > 0
        signal.setitimer(signal.ITIMER_REAL, seconds, seconds)

    def close(self):
        """Rings no more."""
        self.every(0)
        signal.signal(signal.SIGALRM, signal.SIG_IGN)
