"""Transactions over named numbers, certified by `sgt serve`: for the threads of one process.

    with Certifier.resume("bundles", [{"a": 10, "b": 0}]) as certifier:     # goes on from the folder's last bundle
        def move(tx):                                   # done again where it is refused
            tx.put("a", tx.read("a") - 3)
            tx.add("b", 3)
            return tx.read("a")
        left = certifier.run(move)                      # what it returned when it was committed
        certifier.cut()                                 # what was done until now is a bundle in the folder

The same without a function, for who neither returns nor breaks out of the loop:

        for attempt in certifier.transaction():         # tried again where it is refused
            with attempt as tx:                         # committed at its end, withdrawn where it raises
                tx.add("b", 3)

A certifier has sites, numbered from 0, each with its items: whole numbers below 2^64. Their names are a small letter and then at most
fifteen small letters, digits and underscores. Any thread may call any method: a lock is held for the talk of one line.

Transactions come in epochs of at most 4,096. A certifier closes a full one by itself: a thread that begins one more then waits until
none is open. So does `cut`. A thread that has a transaction open itself can't wait so: RuntimeError. Nobody waits for longer than
`patience` seconds (Stuck), nor for a certifier that has ended (Lost).

The program is `sgt`, or what the variable SGT names.
"""
import contextlib
import fcntl
import os
import re
import subprocess
import threading
import time

EPOCH_IS_FULL, NO_NUMBER_LEFT = "E7", "E11"
PIECE = 1000                                    # so many bundles are audited by one call


class Refused(Exception):
    """What was asked for is refused, E1 to E12 or L1 (`sgt explain E4` tells more), and nothing has changed."""

    def __init__(self, code, line):
        super().__init__(code, line)
        self.code, self.line = code, line

    def __str__(self):
        return f"{self.code}, to {self.line!r}"


class Lost(ConnectionError):
    """The certifier has ended. What it answered is in its bundles, if it had a folder, ended by itself and could write the last one."""


class Stuck(TimeoutError):
    """A transaction that another thread has open didn't end. Nothing has changed: it may be asked again."""


class Busy(OSError):
    """Another `sgt serve` has the folder: one of this program, or one whose program died and that writes its last bundle."""


class NotCommitted(Exception):
    """A transaction was refused at each of its tries."""


class NotWritten(OSError):
    """A bundle can't be written. While the certifier lives nothing is lost: `cut` may be called again."""


class NotAChain(ValueError):
    """The bundles of a folder aren't a chain, or other values are to go on from it."""


class Transaction:
    """A transaction, which waits and is waited for as one of the thread that began it. It stands in the bundle `bundle` as `number`."""

    def __init__(self, certifier):
        self.certifier, self.number, self.bundle, self.owner = certifier, None, None, threading.current_thread()
        self.is_open, self.was_refused = True, False

    def read(self, item, site=0):
        """The item's value: with the transaction's own change, where it made one."""
        return int(self.certifier.ask(f"r{self.number}[{site}.{item}]").rpartition("=")[2])

    def put(self, item, value, site=0):
        """The item is to have this value, once the transaction is committed."""
        self.certifier.ask(f"w{self.number}[{site}.{item}]={value}")

    def add(self, item, value, site=0):
        """This is to be added to the item, modulo 2^64. Transactions that only add to an item don't stand in each other's way."""
        self.certifier.ask(f"d{self.number}[{site}.{item}]={value % 2**64}")

    def commit(self):
        """Whether the transaction is committed. Where it isn't it is over, and what it did may be tried as another one."""
        self.was_refused = self.end_by("c").endswith(" no")
        return not self.was_refused

    def withdraw(self):
        """The transaction is given up."""
        self.end_by("a")

    def end_by(self, letter):
        try:
            said = self.certifier.ask(f"{letter}{self.number}")
        except Lost:
            self.ended()
            raise
        self.ended()
        return said

    def ended(self):
        self.is_open = False
        with self.certifier.change:
            self.certifier.open.discard(self)
            self.certifier.change.notify_all()

    def __str__(self):
        has_ended = "" if self.owner.is_alive() else ", which has ended"
        return f"{self.number} of the thread {self.owner.name}{has_ended}"


class Attempt:
    """One try of a transaction, for `with`."""

    def __init__(self, certifier):
        self.certifier, self.tx, self.is_last = certifier, None, False

    def __enter__(self):
        self.tx = self.certifier.begin()
        return self.tx

    def __exit__(self, kind, why, trace):
        if not self.tx.is_open:
            return
        try:
            if kind is None:
                self.tx.commit()
        finally:
            if self.tx.is_open:
                self.tx.ended() if self.certifier.lost else self.tx.withdraw()
        if self.tx.was_refused and self.is_last:
            raise NotCommitted("refused, and nobody tries again")


def bundles_in(folder):
    """The names of the folder's bundles, in their order."""
    return sorted(name for name in os.listdir(folder) if re.fullmatch(r"[0-9]{8}\.sgt", name))


def finals_of(path):
    """The values that a bundle ends with: of each site its items."""
    sites = []
    with open(path, encoding="ascii") as file:
        for line in file:
            if line.startswith("site "):
                sites.append({})
            elif line.startswith("final "):
                item, _, value = line[len("final "):].partition("=")
                sites[-1][item] = int(value)
    return sites


def audit(folder, names, program=None):
    """Audits these bundles as a chain: what is said of each piece, else NotAChain. A command line has its limit, so it goes by pieces,
    each of which begins with the last bundle of the one before (and counts that one's transactions, too)."""
    program, said = program or os.environ.get("SGT", "sgt"), []
    if os.path.dirname(program):
        program = os.path.abspath(program)      # it runs in the folder
    for at in range(0, len(names), PIECE):
        words = [program, "audit", "--chain", *names[max(at - 1, 0):at + PIECE]]
        done = subprocess.run(words, cwd=folder, capture_output=True, text=True)
        if done.returncode != 0:
            raise NotAChain((done.stdout + done.stderr).rstrip("\n"))
        said.append(done.stdout.rstrip("\n"))
    return said


@contextlib.contextmanager
def locked(folder, patience):
    """A lock of the folder, which is made. Who inherits it keeps it: so `sgt serve` has it to its end, also when this program dies."""
    os.makedirs(folder, exist_ok=True)
    lock, until = os.open(folder, os.O_RDONLY), time.monotonic() + patience
    try:
        while True:
            try:
                fcntl.flock(lock, fcntl.LOCK_EX | fcntl.LOCK_NB)
                break
            except BlockingIOError:
                if time.monotonic() >= until:
                    raise Busy(f"another sgt serve has the folder {folder}") from None
                time.sleep(0.05)
        yield lock
    finally:
        os.close(lock)


class Certifier:
    """`sgt serve` behind a pipe."""

    def __init__(self, sites, bundles=None, program=None, patience=60, *, goes_on=False, audited=False):
        """Of each site its items with their first values, and the folder of bundles, which is made. Without it bundles go nowhere. In a
        folder with bundles the values are to be those of the last one: else NotAChain. `resume` takes these."""
        self.program, self.patience = program or os.environ.get("SGT", "sgt"), patience
        self.talk = threading.Lock()            # for a line and its reply
        self.lost = None                        # why there is no certifier any more
        self.change = threading.Condition()     # of what is below (its lock may be taken again)
        self.open = set()                       # the transactions that are open
        self.is_waiting = False                 # a thread waits until none is, and none may be begun
        self.next_bundle = 1
        if bundles is None:
            self.start(sites, [], ())
            return
        with locked(bundles, patience if goes_on else 0) as lock:
            if names := bundles_in(bundles):
                if audited:
                    audit(bundles, names, self.program)
                last = finals_of(os.path.join(bundles, names[-1]))
                if not goes_on and last != [dict(items) for items in sites]:
                    raise NotAChain(f"{names[-1]} ends with other values: go on from it by Certifier.resume, or take another folder")
                sites, self.next_bundle = last, int(names[-1][:8]) + 1
            self.start(sites, ["--bundles", os.fspath(bundles)], (lock,))

    @classmethod
    def resume(cls, bundles, first, audited=False, program=None, patience=60):
        """Goes on from the folder's last bundle, or from the first values where there is none, once no other `sgt serve` has the folder:
        Busy if one has it for longer than the patience. With `audited` the bundles are to be a chain: else NotAChain."""
        return cls(first, bundles, program, patience, goes_on=True, audited=audited)

    def start(self, sites, words, locks):
        """Starts the program. It is in a session of its own, so that ^C of a terminal doesn't end it before its last bundle."""
        self.process = subprocess.Popen([self.program, "serve", *words], stdin=subprocess.PIPE, stdout=subprocess.PIPE, pass_fds=locks,
                                        start_new_session=True)
        lines = [" ".join([f"site {at}", *(f"{item}={value}" for item, value in sorted(site.items()))]) for at, site in enumerate(sites)]
        try:
            self.process.stdin.write("".join(line + "\n" for line in lines).encode())
        except BrokenPipeError:
            pass                                # `ask` tells it

    def ask(self, line):
        """The reply to a line."""
        with self.talk:
            self.check()
            try:
                self.process.stdin.write(f"{line}\n".encode())
                self.process.stdin.flush()
                said = self.process.stdout.readline().decode()
            except BrokenPipeError:
                said = ""
            except BaseException:
                self.lost = f"{line!r} was cut short"
                raise
            if not said.endswith("\n"):
                self.lost = f"the certifier has ended with status {self.process.wait()}"
            elif said.startswith("! L") and " line " in said:
                self.lost = f"the sites can't be read: {said[2:-1]}"
            self.check()
        said = said[:-1]
        if said == "! B":
            raise NotWritten("the bundle can't be written")
        if said.startswith("! "):
            raise Refused(said[2:], line)
        return said

    def check(self):
        """Lost, where there is no certifier any more."""
        if self.lost:
            raise Lost(self.lost)

    def wait_until(self, holds, why):
        """Waits, under `change`, for no longer than the patience allows and the certifier lives."""
        until = time.monotonic() + self.patience
        while not holds():
            self.check()
            if self.process.poll() is not None:
                raise Lost(f"the certifier has ended with status {self.process.returncode}")
            if time.monotonic() >= until:
                names = ", ".join(map(str, sorted(self.open, key=lambda tx: tx.number or 0)))
                raise Stuck(f"waited {self.patience} seconds {why}; open: {names}")
            self.change.wait(0.2)

    def wait_for_others(self):
        """Waits, under `change`, until no thread waits for none being open."""
        if self.is_waiting and self.has_own():
            raise RuntimeError("this thread has a transaction open")
        self.wait_until(lambda: not self.is_waiting, "for a thread that waits until no transaction is open")

    def has_own(self):
        return any(tx.owner is threading.current_thread() for tx in self.open)

    def ask_when_none_is_open(self, line):
        """The reply to a line that is asked once no transaction is open."""
        with self.change:
            if self.has_own():
                raise RuntimeError("this thread has a transaction open")
            self.wait_for_others()
            self.is_waiting = True
            try:
                self.wait_until(lambda: not self.open, "until no transaction is open")
                said = self.ask(line)
                if line == "x":
                    self.next_bundle = int(said[2:]) + 1
                return said
            finally:
                self.is_waiting = False
                self.change.notify_all()

    def begin(self):
        """A new transaction. It is to end by `commit` or `withdraw`, whatever happens: others wait for it."""
        while True:
            tx = Transaction(self)
            with self.change:
                self.wait_for_others()
                self.open.add(tx)
            try:
                tx.number, tx.bundle = int(self.ask("b")[1:]), self.next_bundle
                return tx
            except BaseException as why:
                tx.ended()
                if not isinstance(why, Refused) or why.code not in (EPOCH_IS_FULL, NO_NUMBER_LEFT):
                    raise
                is_full = why.code == EPOCH_IS_FULL
            self.ask_when_none_is_open("z" if is_full else "x")

    def transaction(self, tries=1000):
        """Tries of one transaction, up to the first that isn't refused; behind the last one NotCommitted. Who leaves the loop by `return`
        or `break` inside it leaves it before a refusal is known, and is told only on standard error: `run` has no such trap."""
        for _ in range(tries):
            attempt = Attempt(self)
            try:
                yield attempt
            except GeneratorExit:
                attempt.is_last = True
                if attempt.tx is not None and attempt.tx.was_refused:
                    raise NotCommitted("refused, and the loop was left by return or break") from None
                raise
            if not attempt.tx.was_refused:
                return
        raise NotCommitted(f"refused {tries} times")

    def run(self, does, tries=1000):
        """What `does(tx)` returned at the try that was committed, or that it withdrew itself."""
        for attempt in self.transaction(tries):
            with attempt as tx:
                done = does(tx)
        return done

    def cut(self):
        """The number of the bundle that has what was done since the last one. It waits until no transaction is open."""
        return int(self.ask_when_none_is_open("x")[2:])

    def end(self):
        """Ends the talk: what is open is withdrawn, and what wasn't cut is a bundle. The certifier's status, 0 where all is well; with
        another one what wasn't cut may be lost."""
        with self.talk:
            self.lost = self.lost or "the talk has ended"
            try:
                self.process.stdin.close()
            except BrokenPipeError:
                pass
            self.process.stdout.close()
            return self.process.wait()

    def __enter__(self):
        return self

    def __exit__(self, kind, why, trace):
        status = self.end()
        if kind is None and status != 0:
            raise Lost(f"the certifier has ended with status {status}: what wasn't cut may be lost")
