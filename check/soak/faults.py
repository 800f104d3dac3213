"""faults: kills under load, starts, prunes, compactions, lost folders and restores."""
import http.client
import os
import subprocess
import threading
import time

from lib import TOP, Broken
from lib.command import GIVEN
from world import DAY

COMPACT = os.path.join(TOP, "examples/two-regions/compact")
LOAD, LONGEST_LOAD, LONGEST_START = 60, 0.15, 0.6  # refreshes; seconds until a kill
RUNNING = 2 / 3  # of the regions, at least


class Load:
    """Refreshes at a region, and pushes of what it lacks of another, until it is killed."""

    def __init__(self, clients, region, source, tokens):
        self.clients, self.region, self.source, self.tokens = clients, region, source, tokens
        self.known, self.replies, self.refusal = region.held_to(), [], None
        self.threads = [threading.Thread(target=self.run, args=[it])
                        for it in (self.refresh, self.push)]
        for it in self.threads:
            it.start()

    def run(self, way):
        """Runs until the region is dead. A refusal is kept."""
        try:
            way()
        except (OSError, http.client.HTTPException):
            pass  # the region is dead
        except Broken as why:
            self.refusal = why

    def refresh(self):
        for it in self.tokens:
            status, said = self.region.post("/token", **self.clients.refreshing(it))
            self.replies.append((it, status, said))

    def push(self):
        for page in self.source.bundles(self.known):
            for part in page.halves() if len(page.items) > 1 else [page]:
                self.region.take(part)

    def join(self):
        """Waits for both threads, and keeps the tokens of the replies. Raises a refusal."""
        for it in self.threads:
            it.join()
        for token, status, said in self.replies:
            self.clients.world.count("/token under a kill %d" % status)
            if self.clients.keep(self.region, token.family, status, said):
                self.clients.spent.append(token)
        if self.refusal:
            raise self.refusal


class Faults:
    def __init__(self, world, clients, exchange):
        self.world, self.dice = world, world.dice
        self.clients, self.exchange = clients, exchange

    def kill(self):
        """SIGKILL amid refreshes and pushes, unless too few regions run."""
        if len(self.world.running()) <= len(self.world.regions) * RUNNING:
            return
        region = self.world.one()
        tokens = []
        for _ in range(LOAD):
            token = self.clients.pick_fresh()
            if token and (token.home is region or self.world.chance(0.3)):
                token.is_used = True
                tokens.append(token)
        pause, source = self.dice.random() * LONGEST_LOAD, self.world.one()
        load = Load(self.clients, region, source, tokens)
        time.sleep(pause)
        region.kill()
        load.join()
        self.world.count("kills")
        self.world.note("kill", region=region, replies=len(load.replies))

    def restart(self, region):
        """The next start of a site that is down. Some starts are killed, and begin again."""
        is_lost = not region.is_lost and self.world.chance(0.06)
        margin = DAY if self.world.chance(0.3) and not is_lost else None
        if margin or is_lost:
            self.exchange.logs_to_witness(region)
        if is_lost:
            self.lose(region)
        elif self.world.chance(0.3):
            self.cut_record(region)
        near = self.world.near(region)
        peers = self.dice.sample(near, min(len(near), self.dice.randrange(3)))
        lives = self.world.lives()
        if self.world.chance(0.3):
            region.start(lives, peers, margin)
            time.sleep(self.dice.random() * LONGEST_START)
            region.kill()
            self.world.count("starts killed")
        self.world.note("start", region=region, margin=margin, lost=is_lost, lives=lives)
        region.start(lives, peers, margin)
        self.compare_vectors(region)
        self.world.count("starts")
        self.world.count("prunes at a start", bool(margin))
        if is_lost:  # what its logs had comes back, as from a backup
            for page in self.world.witness.bundles(region.held_to()):
                region.take(page)

    def compare_vectors(self, region):
        for number, (before, now) in region.await_up().items():
            self.world.found("%s had %d:%d, and has %d after a start" % (
                region, number, before, now))

    def lose(self, region):
        """A lost folder. Half of them get what a backup has, the witness's pages, as history."""
        region.lose()
        self.world.count("folders lost")
        if self.world.chance(0.5):
            with open(region.folder / "history/kept.otb", "wb") as file:
                for page in self.world.witness.bundles({}):
                    file.write(page.write())
            self.world.count("restores")

    def cut_record(self, region):
        """Puts a cut record behind the last log, as a kill amid a write leaves it."""
        logs = sorted(region.folder.glob("log/*.otb"))
        page = next(self.world.witness.bundles({}), None)
        if logs and page:
            whole = page.part(0, 1).write()
            with open(logs[-1], "ab") as file:
                file.write(whole[:self.dice.randrange(1, len(whole))])
            self.world.count("records cut")

    def compact(self, region):
        """Prunes a region that runs, and its files. Some of these runs are killed."""
        self.exchange.to_witness(region)
        region.prunes += 1
        words = [COMPACT, "--margin", str(DAY), "--push", region.url, str(region.folder)]
        run = subprocess.Popen(
            ["env", *region.clock.words, "TOKEND=" + GIVEN.program, *words], text=True,
            stdout=subprocess.PIPE, stderr=subprocess.STDOUT)
        if self.world.chance(0.4):
            time.sleep(self.dice.random() * LONGEST_START)
            run.kill()
            self.world.count("compactions killed")
            run.communicate()
            return
        said = run.communicate()[0]
        self.world.count("compactions")
        self.world.note("compact", region=region, said=said)
        if run.returncode:
            self.world.found("compact of %s: status %d: %s" % (region, run.returncode, said[-300:]))
