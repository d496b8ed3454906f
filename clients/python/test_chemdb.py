"""Tries the client with the program that the variable CHEMDB names: CHEMDB=PROGRAM python3 test_chemdb.py"""

import contextlib
import io
import os
import pickle
import select
import signal
import socket
import subprocess
import tempfile
import threading
import time
import unittest

import chemdb

MOLFILE = """acetate
  by hand

  4  3  0  0  0  0  0  0  0  0999 V2000
    0.0000    0.0000    0.0000 C   0  0  0  0  0  0
    1.5000    0.0000    0.0000 C   0  0  0  0  0  0
    2.2000    1.2000    0.0000 O   0  5  0  0  0  0
    2.2000   -1.2000    0.0000 O   0  0  0  0  0  0
  1  2  1  0
  2  3  2  0
  2  4  1  0
M  CHG  1   4  -1
M  END
"""


def relay(path, script, replies, stop):
    """Stands between a Unix socket and an end of `serve`, as socat does: one client at a time, bytes as they come."""
    with socket.socket(socket.AF_UNIX) as listener:
        listener.bind(path)
        listener.listen(4)
        listener.settimeout(0.1)
        while not stop.is_set():
            with contextlib.suppress(socket.timeout, OSError), listener.accept()[0] as client:
                hand_on(client, script, replies, stop)


def hand_on(client, script, replies, stop):
    """Hands bytes on until the client is gone. What could not be handed on to it is lost."""
    line = b""
    while not stop.is_set():
        ready = select.select([replies] if line else [client, replies], [script] if line else [], [], 0.1)
        if script in ready[1]:
            line = line[os.write(script, line[:4096]):]
        if client in ready[0]:
            line = client.recv(4096)
            if not line:
                return
        if replies in ready[0]:
            client.sendall(os.read(replies, 65536))


class Store(unittest.TestCase):
    """A folder for a test, with a store in it."""

    def setUp(self):
        # In memory, where there is such a folder: a commit on a disk waits for the disk.
        folder = tempfile.TemporaryDirectory(dir="/dev/shm" if os.access("/dev/shm", os.W_OK) else None)
        self.addCleanup(folder.cleanup)
        self.folder = folder.name
        self.file = self.path("store")
        chemdb.init(self.file)

    def path(self, name):
        return os.path.join(self.folder, name)

    def program(self, text):
        """A program in place of chemdb, which a shell runs."""
        path = self.path("program")
        with open(path, "w") as file:
            file.write("#!/bin/sh\n" + text)
        os.chmod(path, 0o755)
        return path


class Lines(Store):
    def test_each_line_of_a_script_has_its_method(self):
        with chemdb.run(self.file, page=1) as db:
            self.assertEqual(db.register(1, "CCO"), 1)
            self.assertEqual(db.register_new(2, "CC=O"), 2)
            self.assertEqual(db.register_mol(3, MOLFILE), 3)
            self.assertEqual(db.revise(1, "CCCO"), 4)
            self.assertEqual(db.show(1), chemdb.Record(1, 4, "smiles", "CCCO"))
            self.assertEqual(db.show(3), chemdb.Record(3, 3, "molfile", MOLFILE))
            hits = db.search("C=O")
            self.assertEqual(list(hits), [2, 3])
            self.assertEqual((hits.end.version, hits.end.hits), (4, 2))
            self.assertEqual(list(db.same("C(=O)C")), [2])
            likes, end = db.similar("OCCC", 1, 1, 5)
            self.assertEqual((likes[0].identifier, likes[0].common, end.scored), (1, likes[0].all, 3))
            self.assertEqual(db.open("carbonyls", "C=O"), 4)
            self.assertEqual(db.watch("acids", "C(=O)[O-]"), chemdb.End(4, 1))
            self.assertEqual(db.withdraw(2), 5)
            self.assertEqual(db.show(2), chemdb.Record(2, 5, "withdrawn", None))
            pages = [db.next("carbonyls")]
            while not pages[-1].end:
                pages.append(db.next("carbonyls"))
            self.assertEqual([hit for page in pages for hit in page.hits], [2, 3])
            self.assertEqual(pages[-1].end.version, 4)
            self.assertEqual(db.stats(), chemdb.Stats(5, 2, 1, 5, 1))
            db.close_cursor("carbonyls")
            self.assertEqual(db.revise_mol(1, MOLFILE), 6)
            self.assertEqual((list(db.hits("acids")), db.hits("acids").end.rebuilt), ([1, 3], 0))
            db.unwatch("acids")
            self.assertEqual(db.prune(), 3)
            left = []
            self.assertEqual(db.compact(left.append), 1)
            self.assertEqual(left[-1], 0)
        with chemdb.run(self.file) as db:
            self.assertEqual(db.stats(), chemdb.Stats(6, 2, 1, 3, 0))

    def test_records_of_an_sd_file_are_answered_one_by_one(self):
        record = MOLFILE + ">  <NAME>\nacetate\nof something\n\n"
        with chemdb.mem() as db:
            answers = db.register_sd(7, [record, "nothing", record + "$$$$\n"])
            self.assertEqual((answers[0], answers[2]), (1, 2))
            self.assertIsInstance(answers[1], chemdb.RefusedMolfileCut)
            self.assertEqual(db.data(9, "NAME"), ["acetate", "of something"])
            self.assertEqual(db.show(7).text, record)
            with self.assertRaises(chemdb.RefusedData):
                db.data(7, "name")
            with self.assertRaises(chemdb.RefusedId):
                db.register_sd(999_999_999, [record, record])
            with self.assertRaises(ValueError):
                db.register_sd(10, [record + "$$$$\n" + record])
            text = (record + "$$$$\n").encode() * 2500 + b"cut\n$$$$\n" + MOLFILE.replace("\n", "\r\n").encode()
            loaded = db.load_sd(io.BytesIO(text), 100)
            self.assertEqual((loaded.registered, len(loaded.refused), loaded.faults), (2501, 1, []))
            self.assertEqual(loaded.refused[0][:3], (2501, 2600, "cut\n"))
            self.assertEqual(db.show(2601).text, MOLFILE)

    def test_molfiles_keep_their_bytes(self):
        with chemdb.mem() as db:
            odd = MOLFILE.replace("by hand", "K\u00e4the\u2028\u0085 \x0b \x0c")
            db.register_mol(1, odd)
            self.assertEqual(db.show(1).text, odd)
            db.register_mol(2, odd.replace("\n", "\r\n"))
            self.assertEqual(db.show(2).text, odd)
            latin = MOLFILE.replace("by hand", "K\u00e4the").encode("latin-1")
            db.register_mol(3, latin)
            self.assertEqual(db.show(3).text.encode("utf-8", "surrogateescape"), latin)
            db.register_mol(4, db.show(3).text)
            self.assertEqual(db.show(4).text, db.show(3).text)
            for bad in ("", "CCO\n", MOLFILE.replace("M  END", "M END"), MOLFILE + "$$$$\n", MOLFILE + MOLFILE):
                with self.assertRaises(ValueError):
                    db.register_mol(5, bad)
            long = MOLFILE.replace("M  END", "M  END" + " " * 65_536)
            with self.assertRaises(ValueError):
                db.register_mol(5, long)
            with self.assertRaises(chemdb.RefusedLong):
                db.register_mol(5, long + "M  END\n")
            self.assertEqual(db.stats().version, 4)

    def test_any_line_can_be_asked(self):
        with chemdb.mem() as db:
            self.assertEqual(db.ask("register 1 CCO"), ["ok 1"])
            self.assertEqual(db.ask("search CO"), ["hit 1", "end at 1 tried 1 hits 1"])
            self.assertEqual(db.ask("similar 1 2 10 CO"), ["like 1 6 10", "end at 1 scored 1 hits 1"])
            self.assertEqual(db.ask("nonsense"), ["refused syntax"])
            self.assertEqual(db.ask("register-mol 0", MOLFILE), ["refused id"])
            self.assertEqual(db.ask("register-sd 5 2", MOLFILE + "$$$$\n\n$$$$\n"), ["ok 2", "refused molfile cut"])
            self.assertEqual(db.ask("register-sd 0 1", MOLFILE), ["refused id"])
            self.assertEqual(db.ask("register-sd 0 0"), ["refused syntax"])
            self.assertEqual(db.ask("show 5"), ["record 5 version 2 molfile 13"] + MOLFILE.splitlines())
            wrong = [("", ""), ("a\nb", ""), ("register-mol 1", ""), ("register-sd 1 2", MOLFILE), ("prune", "x")]
            for line, body in wrong:
                with self.subTest(line), self.assertRaises(ValueError):
                    db.ask(line, body)
            self.assertEqual(db.stats().version, 2)


class Errors(Store):
    def test_each_refusal_has_an_exception_of_its_name(self):
        table = [
            ("nonsense", "RefusedSyntax", None),
            ("register 0 C", "RefusedId", None),
            ("search " + "C" * 65_536, "RefusedLong", None),
            ("register 5 C(", "RefusedSmilesSyntax", None),
            ("register 5 C1", "RefusedSmilesRing", None),
            ("register 5 " + "C" * 1000, "RefusedSmilesLimit", None),
            ("register 5 CCc1cccc1", "RefusedSmilesAromatic", 2),
            ("search C(", "RefusedSmartsSyntax", None),
            ("search C1", "RefusedSmartsRing", None),
            ("search [R2]", "RefusedSmartsRingset", None),
            ("search [C@H]", "RefusedSmartsStereo", None),
            ("search C>>O", "RefusedSmartsReaction", None),
            ("search " + "C" * 257, "RefusedSmartsLimit", None),
            ("register 1 C", "RefusedKnown", None),
            ("revise 9 C", "RefusedAbsent", None),
            ("revise 2 C", "RefusedWithdrawn", None),
            ("data 1 NAME", "RefusedData", None),
            ("next none", "RefusedCursor", None),
            ("hits none", "RefusedWatch", None),
            ("watch w17 C", "RefusedWatches", None),
            ("register 4 C", "RefusedFull", None),
        ]
        with chemdb.mem(commits=3) as db:
            db.register(1, "CCO")
            db.register(2, "C")
            db.withdraw(2)
            for number in range(16):
                db.watch(f"w{number}", "C")
            for line, name, position in table:
                with self.subTest(line[:40]), self.assertRaises(chemdb.Refused) as caught:
                    db._ask(line, "ok", "end")
                error = caught.exception
                self.assertEqual((type(error).__name__, error.position, error.line), (name, position, line))
                copy = pickle.loads(pickle.dumps(error))
                self.assertEqual((type(copy), copy.reply, copy.line), (type(error), error.reply, line))
            with self.assertRaises(chemdb.RefusedSame) as caught:
                db.register_new(4, "OCC")
            self.assertEqual((caught.exception.identifier, caught.exception.position), (1, None))
            for number in range(64):
                db.open(f"c{number}", "C")
            with self.assertRaises(chemdb.RefusedPins):
                db.search("C")

    def test_each_refusal_of_a_molfile_has_its_line(self):
        table = [
            ("V2000", "V3000", "RefusedMolfileHeader", None),
            ("  2  3  2", "  2  3  4", "RefusedMolfileQuery", 10),
            (" O   0  5", " Xx  0  5", "RefusedMolfileColumns", 7),
            ("  2  4  1", "  2  9  1", "RefusedMolfileBond", 11),
            ("  4  3  0", "  5  9  0", "RefusedMolfileColumns", 9),
            ("  4  3  0", "  4  9  0", "RefusedMolfileColumns", 12),
            ("acetate", "x\n" * 200_000, "RefusedMolfileLimit", None),
        ]
        with chemdb.mem() as db:
            for old, new, name, position in table:
                with self.subTest(new[:20]), self.assertRaises(chemdb.RefusedMolfile) as caught:
                    db.register_mol(1, MOLFILE.replace(old, new))
                self.assertEqual((type(caught.exception).__name__, caught.exception.position), (name, position))

    def test_replies_that_no_test_can_provoke_have_their_exceptions(self):
        table = [
            (b"fault memory", chemdb.FaultMemory),
            (b"fault disk sure", chemdb.FaultDiskSure),
            (b"fault disk doubt", chemdb.FaultDiskDoubt),
            (b"refused generation", chemdb.RefusedGeneration),
            (b"refused sd cut", chemdb.RefusedSdCut),
            (b"refused sd limit", chemdb.RefusedSdLimit),
            (b"refused smiles strange 7", chemdb.RefusedSmiles),
            (b"refused strange", chemdb.Refused),
            (b"fault strange", chemdb.Fault),
        ]
        for reply, kind in table:
            self.assertIs(type(chemdb._error(reply, "a line")), kind)
        self.assertEqual(chemdb._error(b"refused smiles aromatic 3", "a line").code, "smiles aromatic")
        with self.assertRaises(chemdb.ChemDBError):
            chemdb._error(b"hello", "a line")

    def test_a_fault_behind_hits_is_raised_behind_them(self):
        program = self.program('read l; echo "stats version 0 live 0 withdrawn 0 kept 0 pins 0"; read l; '
                               'printf "hit 1\\nhit 2\\nfault memory\\n"; read l; echo "ok 1"; cat\n')
        with chemdb.run(self.file, program) as db:
            came = []
            with self.assertRaises(chemdb.FaultMemory):
                came.extend(db.search("C"))
            self.assertEqual(db.register(1, "C"), 1)

    def test_a_full_disk_is_a_fault_and_the_session_goes_on(self):
        program = self.program(f'trap "" XFSZ; ulimit -f 8; exec "{os.environ["CHEMDB"]}" "$@"\n')
        with chemdb.run(self.file, program) as db:
            loaded = db.load([(number, "C" * 100) for number in range(1, 101)])
            self.assertTrue(0 < loaded.registered < 100)
            self.assertEqual(loaded.registered + len(loaded.faults), 100)
            self.assertTrue(all(isinstance(failed.error, chemdb.FaultDiskSure) for failed in loaded.faults))
            self.assertEqual(loaded.faults[0].identifier, loaded.registered + 1)
            self.assertEqual(db.stats().live, loaded.registered)


class Ends(Store):
    def ended(self, call, *words, **options):
        with self.assertRaises(chemdb.Ended) as caught:
            with call(*words, **options):
                pass
        return caught.exception

    def test_a_program_that_ends_gives_its_status_and_sentence(self):
        for status, sentence in chemdb.STATUS.items():
            error = self.ended(chemdb.run, self.file, self.program(f"echo why >&2; exit {status}\n"))
            self.assertEqual((error.status, error.said), (status, "why"))
            self.assertIn(sentence, str(error))
        error = self.ended(chemdb.run, self.file, self.program("kill -9 $$\n"))
        self.assertEqual(error.status, -9)
        self.assertIn("signal 9", str(error))

    def test_the_program_ends_with_the_status_of_its_cause(self):
        with open(self.path("text"), "w") as file:
            file.write("no store")
        with chemdb.run(self.file) as db:
            db.register(1, "CCO")
        with open(self.file, "rb") as file:
            whole = file.read()
        with open(self.path("damaged"), "wb") as file:
            file.write(whole[:-1] + b"\x5a")
        open(self.path("damaged.2"), "w").close()
        self.assertEqual(self.ended(chemdb.mem, workers=17).status, 2)
        self.assertEqual(self.ended(chemdb.run, self.path("absent")).status, 5)
        self.assertEqual(self.ended(chemdb.run, self.path("text")).status, 6)
        damaged = self.ended(chemdb.run, self.path("damaged"))
        self.assertEqual(damaged.status, 7)
        self.assertIn(f"is damaged from byte {len(whole) - 1} on", damaged.said)
        with self.assertRaises(chemdb.Ended) as caught:
            chemdb.init(self.file)
        self.assertEqual(caught.exception.status, 10)
        with chemdb.run(self.file):
            self.assertEqual(self.ended(chemdb.run, self.file).status, 5)
        self.assertEqual(self.ended(chemdb.serve, self.path("absent"), 2).status, 5)
        with self.assertRaises(FileNotFoundError):
            chemdb.run(self.file, self.path("no program"))
        with self.assertRaises(FileNotFoundError), chemdb.serve(self.file, 2, self.path("no program")):
            pass

    def test_a_program_that_ends_in_a_reply_is_not_taken_for_an_answer(self):
        with self.assertRaises(chemdb.Ended), chemdb.mem() as db:
            db.load([(number, "C") for number in range(1, 100_001)])
            came = 0
            for hit in db.search("C"):
                came += 1
                if came == 10:
                    db._program.kill()
        self.assertTrue(10 <= came < 100_000)
        with self.assertRaises(chemdb.ChemDBError):
            db.stats()
        program = self.program('read l; echo "stats version 0 live 0 withdrawn 0 kept 0 pins 0"; read l; '
                               'printf "record 1 version 1 molfile 3\\na\\nb\\nc"; exit 4\n')
        with self.assertRaises(chemdb.Ended) as caught, chemdb.run(self.file, program) as db:
            db.show(1)
        self.assertEqual(caught.exception.status, 4)

    def test_an_interruption_leaves_the_replies_in_step(self):
        def interrupt(number, frame):
            raise KeyboardInterrupt

        program = self.program('read l; echo "stats version 0 live 0 withdrawn 0 kept 0 pins 0"; read l; '
                               'sleep 0.6; printf "hit 1\\nhit 2\\nend at 2 tried 2 hits 2\\n"; '
                               'read l; echo "ok 3"; cat\n')
        before = signal.signal(signal.SIGALRM, interrupt)
        self.addCleanup(signal.signal, signal.SIGALRM, before)
        with chemdb.run(self.file, program) as db:
            signal.setitimer(signal.ITIMER_REAL, 0.2)
            with self.assertRaises(KeyboardInterrupt):
                db.search("C")
            self.assertEqual(db.register(3, "C"), 3)

    def test_what_was_answered_is_there_after_a_kill(self):
        with contextlib.suppress(chemdb.Ended), chemdb.run(self.file) as db:
            threading.Timer(0.2, db.kill).start()
            for number in range(1, 1_000_000):
                db.register(number, "CCO")
        with chemdb.run(self.file) as db:
            self.assertIn(db.stats().version - number, (-1, 0))

    def test_a_block_that_is_left_by_an_error_does_not_wait(self):
        # The search takes longer than anybody waits.
        cage = "C12C3C4C5C6C1C7C2C8C3C9C4C%10C5C%11C6C7C%12C8C9C%10C%11%12"
        started = time.monotonic()
        with self.assertRaises(KeyError), chemdb.run(self.file) as db:
            db.register(1, cage)
            db._begin(chemdb._Request("search " + "~".join(["[#6;R]"] * 20) + "~[#7]"))
            raise KeyError
        self.assertLess(time.monotonic() - started, 30)
        with chemdb.run(self.file) as db:
            self.assertEqual(db.show(1).text, cage)


class Pipes(Store):
    def test_no_full_pipe_holds_a_session(self):
        with chemdb.mem() as db:
            requests = [db._begin(chemdb._Request(f"register {number} CCO")) for number in range(1, 200_001)]
            self.assertEqual(db.stats().version, 200_000)
            self.assertEqual([request.last for request in requests], [[b"ok %d" % n] for n in range(1, 200_001)])

    def test_a_long_answer_can_be_left_early_or_go_on_beside_others(self):
        steps = []
        with chemdb.mem() as db:
            loaded = db.load([(number, "CCO") for number in range(1, 100_001)], progress=steps.append)
            self.assertEqual((loaded.registered, steps[-1]), (100_000, chemdb.Step(100_000, 100_000, 0, True)))
            for hit in db.search("CO"):
                if hit == 10:
                    break
            self.assertEqual(db.stats().live, 100_000)
            seen = 0
            for hit in db.search("CO"):
                seen += 1
                self.assertEqual(hit, seen)
                if hit % 9_000 == 0:
                    self.assertEqual(db.show(hit).identifier, hit)
                    self.assertEqual(db.search("CCO").end.hits, 100_000)
            self.assertEqual(seen, 100_000)
            hits = db.search("CO")
            first = [next(hits) for _ in range(3)]
            rest = hits.as_array()
            self.assertEqual((first, len(rest), rest[0], rest[-1]), ([1, 2, 3], 99_997, 4, 100_000))
            self.assertEqual((list(hits), hits.end.hits), ([], 100_000))

    def test_a_load_pairs_each_refusal_with_its_row(self):
        rows = [(number, "C" if number % 3 else "C(") for number in range(1, 10)] + [(1, "CC")]
        with chemdb.mem() as db:
            loaded = db.load(iter(rows), progress=None)
            self.assertEqual(loaded.registered, 6)
            bad = [(3, 3, "C("), (6, 6, "C("), (9, 9, "C("), (10, 1, "CC")]
            self.assertEqual([failed[:3] for failed in loaded.refused], bad)
            self.assertIsInstance(loaded.refused[3].error, chemdb.RefusedKnown)
            self.assertEqual(len(db.load([(20, "C"), (21, "CCC"), (22, "CCC")], new=True).refused), 2)

            def broken():
                yield 30, "CO"
                yield 31, "CN"
                raise KeyError

            with self.assertRaises(KeyError):
                db.load(broken())
            self.assertEqual([db.show(number).text for number in (30, 31)], ["CO", "CN"])

    def test_threads_share_a_session(self):
        def work(worker):
            for number in range(200):
                identifier = worker * 1000 + number + 1
                db.register(identifier, "CCO")
                wrong.extend([identifier] if db.show(identifier).identifier != identifier else [])
                if number % 50 == 0:
                    found = db.search("CO").as_array()
                    wrong.extend([found] if list(found) != sorted(found) else [])

        wrong = []
        with chemdb.mem() as db:
            threads = [threading.Thread(target=work, args=(worker,)) for worker in range(6)]
            for thread in threads:
                thread.start()
            for thread in threads:
                thread.join()
            self.assertEqual((wrong, db.stats().version), ([], 1200))

    def test_descriptors_are_given_back(self):
        with chemdb.mem():
            pass
        before = len(os.listdir("/proc/self/fd"))
        for _ in range(3):
            with chemdb.serve(self.file, 2) as ends:
                ends[0].stats()
            with self.assertRaises(chemdb.Ended):
                chemdb.run(self.path("absent"))
        self.assertLessEqual(len(os.listdir("/proc/self/fd")), before + 1)


class Served(Store):
    def test_ends_of_one_store(self):
        with chemdb.serve(self.file, 3) as (ann, ben, cyd):
            self.assertEqual((ann.register(1, "CCO"), ben.register(2, "CO")), (1, 2))
            ann.close()
            self.assertEqual(list(cyd.search("CO")), [1, 2])
            self.assertEqual(ben.load([(number, "CN") for number in range(10, 5010)]).registered, 5000)
        with chemdb.run(self.file) as db:
            self.assertEqual(db.stats().live, 5002)

    @contextlib.contextmanager
    def socket(self):
        """A Unix socket in front of an end of `serve`, whose pipes somebody holds open."""
        script, path = self.path("desk"), self.path("socket")
        os.mkfifo(script)
        os.mkfifo(script + ".out")
        held = [os.open(script, os.O_RDWR | os.O_NONBLOCK), os.open(script + ".out", os.O_RDWR | os.O_NONBLOCK)]
        program = chemdb._Program(["serve", self.file, script], None, subprocess.DEVNULL, subprocess.DEVNULL)
        stop = threading.Event()
        thread = threading.Thread(target=relay, args=(path, *held, stop))
        thread.start()
        while not os.path.exists(path):
            time.sleep(0.01)
        try:
            yield path
        finally:
            stop.set()
            thread.join()
            for fd in held:
                os.close(fd)
            self.assertEqual(program.ended().status, 0)

    def leave(self, path, text, read=0):
        """A client that sends a text, reads `read` bytes, and goes away."""
        with socket.socket(socket.AF_UNIX) as client:
            client.connect(path)
            client.sendall(text.encode())
            while read > 0:
                read -= len(client.recv(read))

    def test_a_client_takes_nothing_over_from_the_one_before(self):
        with self.socket() as path:
            with chemdb.connect(path) as db:
                self.assertEqual(db.load([(number, "CCO") for number in range(1, 5001)]).registered, 5000)
            for text, read in [("register 9001 CC", 0), ("search CO\n", 20), ("search CO\nregister 9001 C\nsear", 33),
                               ("register-mol 9002\n" + MOLFILE[:-20], 0), ("register-mol 9003\n" + MOLFILE[:-3], 0),
                               ("register-sd 9004 900\n" + MOLFILE[:-20], 0), ("show 1\n" * 9000, 9)]:
                self.leave(path, text, read)
                with chemdb.connect(path) as db:
                    self.assertEqual(db.search("CO").end.hits, 5000, text[:40])
                    for identifier in (9002, 9003, 9004):
                        with self.assertRaises(chemdb.RefusedAbsent):
                            db.show(identifier)
            with chemdb.connect(path) as db:
                self.assertEqual(db.show(9001).text, "C")

    def test_a_connection_that_breaks_is_no_answer(self):
        path = self.path("socket")
        with socket.socket(socket.AF_UNIX) as listener:
            listener.bind(path)
            listener.listen(1)
            with self.assertRaises(FileNotFoundError):
                chemdb.connect(self.path("nobody"))

            def serve(reply):
                client = listener.accept()[0]
                while b"stop" not in client.recv(65536):
                    pass
                client.sendall(reply)
                client.close()

            for reply in (b"", b"hit 1\nhit", b"hit 1\nhit 2\n"):
                thread = threading.Thread(target=serve, args=(reply,))
                thread.start()
                unix = socket.socket(socket.AF_UNIX)
                unix.connect(path)
                fd = unix.detach()
                session = chemdb.ChemDB(chemdb._Wire(fd, fd, lambda: False), None)
                with self.assertRaises(chemdb.Ended) as caught, session as db:
                    list(db.search("stop"))
                self.assertIn("closed the connection", str(caught.exception))
                thread.join()


if __name__ == "__main__":
    unittest.main()
