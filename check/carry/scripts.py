"""scripts: backup, follow and push, which use carry's modules; and what a start counts."""
import importlib.machinery
import importlib.util
import os
import sys
import types
from pathlib import Path

from bundles import Records, read_bundle, read_vector
from carrier import empty, saying
from formats import ADMINISTERED, ALL, CHANGED, LIMITED, REFRESHED, RETIRED, SKIPPED
from lib import TOP
from lib.cases import Case
from lib.facts import EMPTY_VECTOR, bundle, bundle_with_runs, client, clients, mark, run
from servers import Access, Server


def loaded(script):
    """An example's script as a module, without MQTT."""
    for name in "paho", "paho.mqtt", "paho.mqtt.client":
        sys.modules.setdefault(name, types.ModuleType(name))
        parent, _, child = name.rpartition(".")
        if parent:
            setattr(sys.modules[parent], child, sys.modules[name])
    sys.modules["paho.mqtt.client"].Client = None
    path = os.path.join(TOP, "examples", script)
    loader = importlib.machinery.SourceFileLoader(script.replace("/", "_"), path)
    module = importlib.util.module_from_spec(importlib.util.spec_from_loader(loader.name, loader))
    sys.modules[loader.name] = module  # dataclasses look there
    loader.exec_module(module)
    return module


class Backup(Case):
    def backup(self, *words, **environment):
        return self.run_script("two-regions/backup", *words, **environment)

    def items(self, folder):
        """All items of the segments of a folder."""
        return sorted(item for path in folder.glob("*.otb")
                      for it, _ in Records().feed(path.read_bytes()) for item in it.items)

    def test_facts_and_marks_are_kept(self):
        one, folder = self.tokend(1, *clients(3, *range(1, 201))), Path(self.folder) / "kept"
        status, output, errors = self.backup(one.url, str(folder))
        self.assertEqual((status, errors), (0, ""))
        self.assertRegex(output, "^%s: 200 facts in .*[.]otb\n$" % one.url)
        one.push([mark(3, 201), client(3, 202)], horizon=0)
        self.assertRegex(self.backup(one.url, str(folder))[1], ": 1 facts, 1 marks in ")
        self.assertEqual(self.backup(one.url, str(folder))[1], one.url + ": 0 facts\n")
        self.assertEqual(read_vector((folder / "vector").read_bytes()), one.vector())
        wanted = sorted(clients(3, *range(1, 201)) + [mark(3, 201), client(3, 202)])
        self.assertEqual((len(list(folder.glob("*.otb"))), self.items(folder)), (2, wanted))
        self.assertRegex(self.backup("-a", one.url, str(folder))[1], ": 201 facts, 1 marks in ")
        self.assertEqual((len(list(folder.glob("*.otb"))), self.items(folder)), (1, wanted))
        self.assertEqual(list(folder.glob(".backup*")), [])

    def test_a_server_that_was_started_anew(self):
        said = [EMPTY_VECTOR, bundle(clients(3, 1))[:4].replace(b"OTB1", b"OTV1") + b"\0\1"
                + client(3, 1)[:10]]
        peer = self.peer(lambda path, body: (200, {}, said.pop()) if path == "/sync/vector"
                         else empty(path, body))
        folder = Path(self.folder) / "kept"
        status, _, errors = self.backup(peer.url, str(folder))
        self.assertEqual((status, list(folder.glob("[!.]*"))), (1, []))
        self.assertIn("the server was started anew", errors)

    def test_a_fault_is_status_1_and_wrong_arguments_are_status_2(self):
        folder = str(Path(self.folder) / "kept")
        peer = self.peer(saying(vector=(502, {}, b"")))
        self.assertEqual(self.backup(peer.url, folder, BACKUP_TRIES="0")[0], 1)
        self.assertEqual(peer.asked, ["/sync/vector"])
        self.assertEqual(self.backup(peer.url, folder, BACKUP_TRIES="x")[0], 2)
        self.assertEqual(self.backup("nowhere", folder)[0], 2)
        self.assertEqual(self.backup()[0], 2)


class WholeRecords(Case):
    def test_what_is_whole(self):
        path, log = Path(self.folder) / "log", b"".join(ALL)
        for end in b"", bytes(100), SKIPPED[:-1], b"OTB1":
            path.write_bytes(log + end)
            self.assertEqual(self.run_script("../starter/tokend-start", "--whole", str(path)),
                             (0, "%d\n" % len(log), ""))


class Follow(Case):
    def setUp(self):
        super().setUp()
        self.follow = loaded("fan-out/follow")
        self.live, self.old = Path(self.folder) / "log", Path(self.folder) / "old"
        for it in self.live, self.old:
            it.mkdir()
        self.state = Path(self.folder) / "state"

    def logs(self):
        it = self.follow.Logs([self.live, self.old], self.state)
        it.look()
        return it

    def log(self, count, end=b""):
        path = self.live / "00001.otb"
        path.write_bytes(b"".join(bundle([it]) for it in clients(1, *range(1, count + 1))) + end)
        return path

    def taken(self, logs):
        """The messages of all logs, as if each were acknowledged."""
        found = []
        for log in logs.active():
            log.take_piece()
            for number, (message, end) in enumerate(log.messages()):
                found.append(read_bundle(message))
                log.sent.append((number, end))
            log.settle(set(range(len(log.sent))))
        return found

    def test_records_that_wait_are_bundles_of_128(self):
        self.log(300)
        logs = self.logs()
        found = self.taken(logs)
        self.assertEqual([it.facts for it in found], [128, 128, 44])
        logs.save()
        self.assertEqual(self.taken(self.logs()), [])

    def test_a_record_that_is_cut_is_read_once_it_is_whole(self):
        whole = bundle(clients(1, 3))
        path, logs = self.log(2, whole[:9]), self.logs()
        self.assertEqual([it.facts for it in self.taken(logs)], [2])
        with open(path, "ab") as log:
            log.write(whole[9:])
        self.assertEqual([it.facts for it in self.taken(logs)], [1])

    def test_dots_and_horizons_that_do_not_join(self):
        (self.live / "1.otb").write_bytes(b"".join(ALL) + RETIRED)
        found = self.taken(self.logs())
        self.assertEqual([it.write() for it in found[-2:]],
                         [SKIPPED, b"OTB4\0\5" + REFRESHED[6:] + LIMITED[6:] + CHANGED[6:]
                          + ADMINISTERED[6:] + RETIRED[6:]])
        self.assertEqual([len(it.items) for it in found], [2, 1, 2, 5])

    def test_records_with_runs(self):
        """A long one is a message of its own, and a short one joins others."""
        long, short = bundle_with_runs([run(2, 1, 1024)]), bundle_with_runs([run(3, 1, 2)])
        (self.live / "1.otb").write_bytes(long + short + bundle([mark(3, 3)]))
        found = self.taken(self.logs())
        self.assertEqual([it.write() for it in found], [long, bundle_with_runs([run(3, 1, 3)])])

    def test_a_log_that_is_moved_and_one_that_is_gone(self):
        path, logs = self.log(2), self.logs()
        self.assertEqual(len(self.taken(logs)), 1)
        path.rename(self.old / path.name)
        logs.look()
        self.assertEqual(self.taken(logs), [])
        (self.old / path.name).unlink()
        logs.look()
        self.assertEqual((logs.active(), self.taken(logs)), ([], []))

    def segment(self, name, *items):
        path = self.history / name
        path.write_bytes(b"".join(bundle(items[at:at + 128]) for at in range(0, len(items), 128)))
        return path

    def with_history(self, first=1, last=9):
        """Returns logs that keep a history of the given numbers, and have looked once."""
        self.history = Path(self.folder) / "history"
        self.history.mkdir(exist_ok=True)
        it = self.follow.Logs([self.live, self.old], self.state, self.history,
                              range(first, last + 1))
        it.look()
        return it

    def test_what_was_merged_before_it_was_published_is_published(self):
        self.log(2)
        logs = self.with_history()
        self.assertEqual([it.facts for it in self.taken(logs)], [2])
        logs.save()
        (self.live / "00001.otb").unlink()  # by a compact, which another log was merged by too
        self.segment("compact.otb", *clients(1, 1, 2), *clients(2, 1, 2, 3), *clients(50, 1))
        logs = self.with_history()
        found = self.taken(logs)
        self.assertEqual([it.items for it in found], [tuple(clients(2, 1, 2, 3))])
        logs.save()
        self.assertEqual(self.taken(self.with_history()), [])
        self.segment("again.otb", *clients(1, 1, 2), *clients(2, 1, 2, 3, 4))
        self.assertEqual([it.items for it in self.taken(self.with_history())], [(client(2, 4),)])

    def test_what_was_not_acknowledged_is_published_again(self):
        self.log(300)
        logs = self.logs()
        (log,) = logs.active()
        log.take_piece()
        for number, (_, end) in enumerate(log.messages()):
            log.sent.append((number, end))
        log.settle({0, 2})  # the second has no answer when the publisher dies
        logs.save()
        self.assertEqual([it.items[0] for it in self.taken(self.logs())],
                         [client(1, 129), client(1, 257)])

    def test_marks_of_a_history_are_left_out(self):
        self.with_history()
        path = self.segment("compact.otb", *clients(1, 1))
        path.write_bytes(path.read_bytes() + bundle([mark(1, 2), client(1, 3)]))
        self.assertEqual([it.items for it in self.taken(self.with_history())],
                         [(client(1, 1), client(1, 3))])

    def test_no_log_is_kept_open(self):
        for number in range(1, 51):
            (self.old / ("%05d.otb" % number)).write_bytes(bundle(clients(number, 1)))
        before, logs = len(os.listdir("/proc/self/fd")), self.logs()
        self.assertEqual(len(self.taken(logs)), 50)
        self.assertEqual(len(os.listdir("/proc/self/fd")), before)
        self.assertEqual(self.taken(logs), [])
        self.assertEqual(len(logs.active()), 1)


class Push(Case):
    def setUp(self):
        super().setUp()
        self.push, self.said = loaded("fan-out/push"), []
        self.push.complain = self.said.append

    def hand(self, url, message):
        with Server(url, Access(pauses=(0.1,) * 3)) as region:
            return self.push.hand(region, "tokend/one/log", message)

    def test_a_refused_item_is_printed(self):
        one = self.tokend(1, client(3, 2, b"write"))
        self.assertEqual(self.hand(one.url, bundle(clients(3, 1, 2, 3))), 2)
        self.assertEqual(self.said, ["tokend/one/log: %s refuses 3:2: 409 conflict" % one.url])

    def test_a_message_that_is_no_bundle(self):
        self.assertEqual(self.hand("http://127.0.0.1:1", b"hello, world"), 0)
        self.assertIn("tokend/one/log refuses a message: it begins with b'hell'", self.said[0])

    def test_what_is_no_refusal_keeps_the_message(self):
        for status in 403, 404, 429, 500, 503:
            peer = self.peer(saying(push=(status, {}, b"")))
            with self.assertRaises(SystemExit) as raised:
                self.hand(peer.url, bundle(clients(3, 1)))
            self.assertEqual(raised.exception.code, 1)
            self.assertEqual(len(peer.asked), 4 if status in (429, 500, 503) else 1)
