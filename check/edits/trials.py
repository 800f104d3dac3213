"""trials: the edits of some crates, tried by checks that run side by side."""
import collections
import concurrent.futures
import functools
import os
import queue
import shutil
import signal
import tempfile

import checking
import rounds


GIB = 1 << 30
HELD, HELD_BY_PROGRAM = 3 * GIB, 6 * GIB  # the most that a check of a crate holds, measured


def memory():
    return os.sysconf("SC_PAGE_SIZE") * os.sysconf("SC_PHYS_PAGES")


def lanes():
    """How many checks run at a time: one for each processor, if memory suffices."""
    return max(1, min(len(os.sched_getaffinity(0)), memory() // (5 * GIB)))


class Crate:
    """A crate whose edits are tried, and what was proved of it without them."""

    def __init__(self, tree, name, room, edits):
        self.tree, self.name, self.edits = tree, name, edits
        self.folder, self.words = tree.folder(name), tree.command(name)
        self.needs = HELD_BY_PROGRAM if tree.is_program(name) else HELD
        self.room = os.path.join(room, name)
        os.makedirs(self.room)

    def begin_over_kept(self):
        """Begins with what the last `rt check` in the crate's folder kept."""
        shutil.copytree(self.tree.kept_of(self.name), self.kept(), symlinks=True)

    def prove(self, jobs):
        """Proves the crate as it is. Each round begins with that."""
        status, lines = self.check(self.kept(), jobs=jobs)
        if status:
            raise checking.Failed("%s is not proved:\n%s" % (self.name, "\n".join(lines[-20:])))

    def kept(self):
        return os.path.join(self.room, "kept")

    def check(self, kept, edits=(), jobs=1):
        """One check. If it was killed, most likely for memory, it is made once more."""
        status, lines = checking.checked(self.words, self.folder, kept, edits, jobs)
        if status == -signal.SIGKILL:
            status, lines = checking.checked(self.words, self.folder, kept, edits)
        return status, lines

    def round(self, edits):
        """Checks the crate with some edits: the verdict on each."""
        over = tempfile.mkdtemp(dir=self.room)
        shutil.rmtree(over)
        checking.linked(self.kept(), over)
        try:
            status, lines = self.check(over, edits)
        finally:
            shutil.rmtree(over, ignore_errors=True)
        said = checking.verdicts_in(lines)
        if len(edits) == 1:
            return {edits[0]: alone(status, lines, said)}
        return {it: checking.verdict_on(it.of, said) for it in edits}


def alone(status, lines, said):
    """The verdict on the only edit of a round: refused if anything of the crate is."""
    if status == 0:
        return checking.PROVED
    if status == 1 and said and "logic=not-proved" in lines:
        return checking.REFUSED
    return "not tried: " + " ".join(it for it in lines if "error" in it)[:200]


class Trials:
    """Tries edits, and counts how many are refused and how many aren't.

    Events are calls: what runs beside the checks puts some there too, and all are made by `run`, in
    one thread. While `awaited` is true there is one to come.
    """

    def __init__(self, crates, jobs):
        self.left = {it: len(it.edits) for it in crates}
        self.jobs, self.running, self.refused, self.failed = jobs, 0, 0, 0
        self.awaited, self.held = False, 0
        self.ready, self.events = collections.deque(), queue.SimpleQueue()

    def run(self):
        """Makes each call of events until each edit is tried."""
        with concurrent.futures.ThreadPoolExecutor(max(self.jobs, lanes())) as pool:
            try:
                while self.awaited or any(self.left.values()):
                    while self.may_start():
                        self.start(pool, *self.ready.popleft())
                    self.events.get()()
            except BaseException:
                checking.stop()
                raise

    def may_start(self):
        """Whether a check waits, for which there are a lane and memory."""
        if not self.ready or self.running == self.jobs:
            return False
        return not self.running or self.held + self.ready[0][0].needs < memory()

    def start(self, pool, crate, ended, call, *given):
        def done(future):
            self.events.put(functools.partial(self.end, crate, ended, future))
        self.running += 1
        self.held += crate.needs
        pool.submit(call, *given).add_done_callback(done)

    def end(self, crate, ended, future):
        self.running -= 1
        self.held -= crate.needs
        ended(future.result())

    def begin(self, crate, jobs=1):
        """Has a crate proved by so many jobs, before all that waits; its rounds come last."""
        self.ready.appendleft((crate, lambda _: self.add(crate, rounds.rounds_of(crate.edits)),
                               crate.prove, jobs))

    def add(self, crate, parts):
        self.ready.extend((crate, functools.partial(self.count, crate), crate.round, it)
                          for it in parts)

    def count(self, crate, found):
        """Counts the verdicts of a round, with a line for each edit that isn't refused. An edit of
        which the round says nothing is tried again, alone."""
        again = [it for it, verdict in found.items() if verdict in (checking.HIDDEN, None)]
        self.add(crate, [[it] for it in again])
        for it, verdict in found.items():
            if it in again:
                continue
            self.left[crate] -= 1
            if verdict == checking.REFUSED:
                self.refused += 1
            else:
                self.failed += 1
                print("edits: %s/%s: %s" % (crate.name, it.name, verdict), flush=True)
        if not self.left[crate]:
            print("edits: %s: all %d are tried" % (crate.name, len(crate.edits)), flush=True)

    def told(self):
        """Prints the numbers: the status of the command."""
        print("edits: %d refused, as they must be, %d not" % (self.refused, self.failed))
        return 1 if self.failed or not self.refused else 0


def tried(trials):
    """Runs trials: the status of the command."""
    try:
        trials.run()
    except checking.Failed as why:
        print("edits: %s" % why)
        return 1
    return trials.told()
