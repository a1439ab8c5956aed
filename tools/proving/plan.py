"""Which crate is proved next, with how many jobs, as far as processors and memory go."""

import functools
import time

from proving import reckoned

LARGE = 2500    # lines of a crate that gains from more than one job


class Plan:
    """What is proved, what is being proved, and what may be begun: first the crate with the longest way from it to the last one."""

    def __init__(self, given, measures, jobs, memory):
        self.given, self.measures, self.jobs, self.memory = given, measures, jobs, memory
        self.running = {}      # name: jobs, and when it was begun
        self.proved, self.refused = set(), set()

    @functools.cache
    def above(self, name):
        """The seconds of the longest chain of crates that stands on this one."""
        return max((self.measures.seconds(other) + self.above(other) for other in self.given.names if name in self.given.uses(other)), default=0)

    def way(self, name):
        """The seconds of the longest chain from this one up, as far as it is not proved yet."""
        done = time.monotonic() - self.running[name][1] if name in self.running else 0
        return max(self.measures.seconds(name) - done, 0) + self.above(name)

    def minutes_left(self):
        """The minutes until all is proved that can be, as far as the table knows."""
        left = [*self.running, *self.open()]
        return reckoned.minutes(map(self.way, left), map(self.measures.processor_seconds, left), self.jobs)

    def open(self):
        """The crates that can still be proved, those with the longest way first."""
        names = (name for name in self.given.names if name not in self.running and name not in self.proved and name not in self.refused)
        return sorted((name for name in names if not self.refused & self.given.below(name)), key=self.way, reverse=True)

    def ready(self):
        """The open crates whose lower ones are proved."""
        return [name for name in self.open() if self.proved.issuperset(self.given.below(name))]

    def is_urgent(self, name):
        """Whether no crate that is not proved yet has a longer way: what waits for this one ends last."""
        return all(self.way(name) >= self.way(other) for other in [*self.running, *self.open()])

    def gives_way(self, name):
        """Whether this one may run at a lower priority to its end: it never becomes urgent, since all that waits for it takes less than half as long
        as the longest way."""
        return 2 * self.way(name) < max(self.way(other) for other in [*self.running, *self.open()])

    def is_alone(self, name):
        """Whether nothing else can be proved before this one is: all that is not proved yet stands on it."""
        return all(name == other or name in self.given.below(other) for other in [*self.running, *self.open()])

    def jobs_for(self, name):
        """How many jobs a crate gets now, none where it has to wait. The urgent one waits for memory alone, and leaves one job to the others,
        which give way to it; where there are no others it gets all."""
        free = self.jobs - sum(jobs for jobs, _ in self.running.values())
        used = sum(self.measures.memory(other, jobs) for other, (jobs, _) in self.running.items())
        share = free // max(1, len(self.ready()))
        if self.is_urgent(name):
            share = self.jobs if self.is_alone(name) else self.jobs - 1
        jobs = 1 if self.given.lines(name) < LARGE else max(1, share)
        while jobs > 1 and used + self.measures.memory(name, jobs) > self.memory:
            jobs -= 1
        fits = used + self.measures.memory(name, jobs) <= self.memory or not self.running
        return jobs if fits and (free > 0 or self.is_urgent(name)) else 0

    def begin(self, name, jobs):
        self.running[name] = jobs, time.monotonic()

    def end(self, name, proved):
        self.running.pop(name, None)
        (self.proved if proved else self.refused).add(name)

    def left_out(self):
        """The crates above one that was refused."""
        return [name for name in self.given.names if self.refused & self.given.below(name)]
