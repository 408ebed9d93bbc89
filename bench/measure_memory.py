#!/usr/bin/env python3
"""Measures the memory of `kdcd serve` on the loopback. It needs only Linux and Python 3.

    python3 bench/measure_memory.py [--kdcd PROGRAM] [--only PART ..] [--clients N] [--tickets N] [--seconds N] ..

The parts are
    burst   --clients clients get --tickets tickets each. Then no requests come, or with --ask one peer continues. It
            prints the memory before and after, the memory after the server has dropped their authenticators, and what
            that cost
    pinned  the memory that one client pins, with usual requests and with the longest ones
    full    how long a client with a full replay cache is refused
    bound   --takers clients pin all they can under a bound on the process's data (--data, as LimitDATA= of the unit),
            beside one client that logs in and buys tickets; how long until all is well after they stop. With --preload
            another allocator

It makes its realms in a temporary folder, and prints what it found. It ends with status 1 if a request got another
reply than expected. `burst` and `bound` take seven minutes or more, and `full` ten."""

import argparse
import concurrent.futures
import contextlib
import functools
import itertools
import os
import random
import resource
import socket
import statistics
import sys
import tempfile
import threading
import time
import types

import harness_path
from harness.kerberos import as_req, tgs_req, ticket_in
from harness.peer import Peer
from harness.processes import ending
from harness.wire import answer
from measure_realm import RealmServer
from measure_server import KEY, REALM, database_text, framed, read_message, row

SKEW = 300
# The seconds from one tidying to the next, and the longest request that is kept (docs/REFERENCE.md, 'Limits').
MINUTE, LONGEST_KEPT = 60, 4096
# How long an idle server frees the memory of 10,000 clients: for 512 of them every 16 rounds of 100 ms, and all of them
# twice.
FREEING = 70
SERVICES = [(b"host", b"n%d" % number) for number in range(10)]
# The service with the longest name that a request of 4,096 bytes can ask for, if the realm has one.
LONG_SERVICE = (b"a" * 255,) * 13
TICKET, ERROR = 0x6D, 0x7E
# The requests that are sent on a connection before their replies are read. The server keeps at most 150,000 bytes of
# replies.
BATCH = 16


def clock(seconds):
    return time.strftime("%H:%M:%S", time.gmtime(seconds))


def client_of(number):
    return b"user%06d" % number


def database(path, clients):
    """Clients that need no preauthentication, and the services."""
    rows = {name: row("22" * 32) for name in [b"/".join(each).decode() for each in [*SERVICES, LONG_SERVICE]]}
    rows["krbtgt/EXAMPLE.COM"] = row("00" * 32)
    rows.update({client_of(number).decode(): row(KEY.hex(), preauth=False) for number in range(clients)})
    with open(path, "w") as file:
        file.write(database_text(rows))
    return path


# The functions of worker processes, which do nearly all of the work.


def logged_in(numbers, udp):
    """Each client with its ticket and session key."""
    peer, found = Peer(types.SimpleNamespace(udp=udp)), []
    for client in map(client_of, numbers):
        peer.ask(as_req(REALM, client))
        found.append((client, *ticket_in(KEY, peer.reply)))
    return found


def usual_request(known, ctime, cusec, service=SERVICES[0]):
    client, ticket, key = known
    return tgs_req(REALM, client, service, (ticket, key), (ctime, cusec))


def requests_of(known, ctime, count):
    """TGS-REQs, `count` of each client, with authenticators of this second."""
    service = lambda number: SERVICES[number % len(SERVICES)]
    return [usual_request(each, ctime, number, service(number)) for each in known for number in range(count)]


@contextlib.contextmanager
def workers(count, nice):
    """Worker processes with a low priority. At the end they leave what they have not begun."""
    pool = concurrent.futures.ProcessPoolExecutor(count, initializer=os.nice, initargs=(nice,))
    try:
        yield pool
    finally:
        pool.shutdown(cancel_futures=True)


def shared(pool, call, items, *more):
    """Calls a function on parts of a list, and joins the lists that it returns."""
    parts = [items[place:place + 100] for place in range(0, len(items), 100)]
    return list(itertools.chain.from_iterable(pool.map(call, parts, *map(itertools.repeat, more))))


# A burst.


class Watch(threading.Thread):
    """Samples of a server's memory, in KiB, and of its processor time."""

    def __init__(self, server):
        super().__init__(daemon=True)
        self.server, self.samples, self.is_over = server, [], False
        self.start()

    def run(self):
        while not self.is_over:
            self.samples.append((time.time(), self.server.resident_kib(), self.server.processor_seconds()))
            time.sleep(0.05)

    def end(self):
        self.is_over = True
        self.join()

    def costs(self):
        """The moments at which the processor time grew more than usual, and by how many seconds."""
        steps = [(new[0], new[2] - old[2], new[0] - old[0]) for old, new in zip(self.samples, self.samples[1:])]
        usual, found = statistics.median(used / passed for _, used, passed in steps), []
        for at, used, passed in steps:
            if used - usual * passed < 0.0005:
                continue
            if not found or at > found[-1][0] + 3:
                found.append([at, 0])
            found[-1][1] += used - usual * passed
        return found


class Asking(threading.Thread):
    """Sends one login after another, each of which gets an error, and records how long each reply took."""

    def __init__(self, server):
        super().__init__(daemon=True)
        self.peer, self.taken, self.is_over = Peer(server), [], False
        self.start()

    def run(self):
        while not self.is_over:
            self.taken.append((time.time(), self.peer.ask(as_req(REALM, b"nobody"))))
            time.sleep(0.002)

    def end(self):
        self.is_over = True
        self.join()
        longest = sorted(self.taken, key=lambda each: -each[1])[:5]
        shown = ", ".join(f"{wait * 1e3:.1f} ms at {clock(at)}" for at, wait in longest)
        usual = statistics.median(wait for _, wait in self.taken)
        print(f"  {len(self.taken)} datagrams meanwhile waited {usual * 1e3:.2f} ms at the median; longest: {shown}")


def send(server, requests, wanted):
    """Sends these requests, and counts those that got another reply."""
    peer, others = Peer(server), {}
    for request in requests:
        peer.ask(request)
        if peer.reply[0] != wanted:
            others[answer(peer.reply)] = others.get(answer(peer.reply), 0) + 1
    if others:
        print(f"  WRONG: replies of another kind: {others}")
    return sum(others.values())


def measure_burst(words, folder):
    server = RealmServer(words.kdcd, database(os.path.join(folder, "burst"), words.clients))
    odd = 0
    with workers(words.workers, words.nice) as pool:
        begun = server.resident_kib()
        print(f"burst: {words.clients} clients, {words.tickets} tickets each; {begun} KiB at the start", flush=True)
        known = shared(pool, logged_in, range(words.clients), server.udp)
        print(f"  {server.resident_kib()} KiB once all have logged in", flush=True)
        for _ in range(words.bursts):
            odd += one_burst(words, server, pool, known, begun)
    server.end()
    return odd


def one_burst(words, server, pool, known, begun):
    """Sends a burst. Its authenticators are in the past, so that they are too old `--seconds` from now. By then all
    have to be sent."""
    ctime = int(time.time()) + words.seconds - SKEW
    parts = [known[place:place + 10_000] for place in range(0, len(known), 10_000)]
    requests = [shared(pool, requests_of, part, ctime, words.tickets) for part in parts]
    requests = list(itertools.chain.from_iterable(requests))
    random.Random(1).shuffle(requests)
    used, start = server.processor_seconds(), time.time()
    odd = send(server, requests, TICKET)
    used = server.processor_seconds() - used
    print(f"  {server.resident_kib()} KiB after {len(requests)} TGS-REQs, which took {time.time() - start:.0f} s and "
          f"{used / len(requests) * 1e6:.1f} us of processor time each", flush=True)
    old = ctime + SKEW + 1
    if time.time() > old:
        print("  WRONG: they were too old before all were sent: give more --seconds")
        odd += 1
    watch, asking = Watch(server), Asking(server) if words.ask else None
    time.sleep(max(0, old + MINUTE + FREEING + 30 - time.time()))
    watch.end()
    at_last = watch.samples[-1][1]
    moments = "; ".join(f"{clock(at)} {cost * 1e3:.1f} ms" for at, cost in watch.costs())
    share = (at_last - begun) / begun * 100
    print(f"  {at_last} KiB at the end, {at_last - begun:+} beside the start ({share:+.0f} of 100)")
    print(f"  they were too old at {clock(old)}; processor time beyond the usual: {moments or 'none'}", flush=True)
    if asking:
        asking.end()
    return odd


# The memory that one client pins.


def replies_to(server, requests):
    """The replies to requests that are sent together, over a connection of their own."""
    with server.connect() as connection:
        connection.sendall(b"".join(map(framed, requests)))
        return [read_message(connection) for _ in requests]


def long_request(known, ctime, cusec):
    """The longest TGS-REQ that is kept, for an unknown service, which the error names."""
    beyond = len(usual_request(known, ctime, cusec, (b"a" * 3000,))) - LONGEST_KEPT
    return usual_request(known, ctime, cusec, (b"a" * (3000 - beyond),))


def pins(words, folder, what, remembered, make, wanted):
    """Measures what the authenticators of one client pin, over connections: over UDP a long reply with a ticket is
    refused."""
    server = RealmServer(words.kdcd, database(os.path.join(folder, "pinned"), 1), "--remembered", str(remembered))
    [known] = logged_in([0], server.udp)
    begun, lengths, odd = server.resident_kib(), (0, 0), 0
    # Ahead, so that none is too old before the last one comes.
    ahead = lambda: int(time.time()) + SKEW - 5
    for place in range(0, remembered, BATCH):
        requests = [make(known, ahead(), number) for number in range(place, min(place + BATCH, remembered))]
        replies = replies_to(server, requests)
        odd += sum(reply[0] != wanted for reply in replies)
        lengths = len(requests[-1]), len(replies[-1])
    [last] = map(answer, replies_to(server, [make(known, ahead(), remembered)]))
    kib = server.resident_kib() - begun
    print(
        f"pinned: {remembered} authenticators, {what} (requests of {lengths[0]} bytes, replies of {lengths[1]}): "
        f"{begun} KiB before, {kib:+} KiB then, {kib * 1024 / 1e6:.1f} MB, {kib * 1024 / remembered:.0f} bytes each; "
        f"one more gets {last}", flush=True,
    )
    if odd or last != "29":
        print(f"  WRONG: {odd} replies of another kind")
    server.end()
    return odd + (last != "29")


def measure_pinned(words, folder):
    kinds = {
        "usual ones": (usual_request, TICKET),
        "the longest, for a service that is unknown": (long_request, ERROR),
        "the longest, for a service of a long name": (functools.partial(usual_request, service=LONG_SERVICE), TICKET),
    }
    return sum(
        pins(words, folder, what, remembered, *kind) for remembered in words.remembered for what, kind in kinds.items()
    )


# How long a client is refused.


class Refused(threading.Thread):
    """Fills a client's replay cache with authenticators of a second that is `ahead`, and sends a request each second
    until it gets a ticket."""

    def __init__(self, words, folder, ahead):
        super().__init__(daemon=True)
        name = os.path.join(folder, f"full{ahead}")
        self.server, self.ahead, self.count = RealmServer(words.kdcd, database(name, 1)), ahead, words.remembered[0]
        self.odd = 1
        self.start()

    def run(self):
        [known] = logged_in([0], self.server.udp)
        # Their second is the one in which they are sent, or is ahead of it.
        start = int(time.time()) + 20
        requests = requests_of([known], start + self.ahead, self.count)
        time.sleep(max(0, start - time.time()))
        odd = send(self.server, requests, TICKET)
        filled, first, peer = time.time(), None, Peer(self.server)
        while time.time() < filled + 2 * SKEW + 30:
            now = time.time()
            # The second differs each time, and no authenticator with this microsecond was sent before.
            peer.ask(usual_request(known, int(now), 999_999))
            if peer.reply[0] == TICKET:
                break
            if answer(peer.reply) == "29":
                first = first or now
            else:
                odd += 1
            time.sleep(1 - time.time() % 1)
        else:
            odd += 1
        now = time.time()
        print(
            f"full: {self.count} authenticators stamped {self.ahead} s ahead, sent in {filled - start:.1f} s: refused "
            f"with 29 for {now - (first or now):.1f} s, until {now - start:.1f} s after the first was sent; "
            f"{odd} odd replies", flush=True,
        )
        self.odd = odd
        self.server.end()


def measure_full(words, folder):
    refused = [Refused(words, folder, ahead) for ahead in (0, SKEW)]
    for each in refused:
        each.join()
    return sum(each.odd for each in refused)


# A bound on memory.


def taking(known, tcp, count):
    """Sends the longest requests of a client, each once, and the usual ones once these get no reply. Returns how many
    got one, and when the first one got none. The server ends a connection if memory runs out for a request on it."""
    answered, refused = 0, None
    for place in range(0, count, BATCH):
        service = SERVICES[0] if refused else LONG_SERVICE
        requests = [usual_request(known, int(time.time()), turn, service) for turn in range(place, place + BATCH)]
        try:
            with socket.create_connection(tcp, 30) as connection:
                connection.sendall(b"".join(map(framed, requests)))
                for _ in requests:
                    read_message(connection)
                    answered += 1
        except (OSError, EOFError):
            refused = refused or time.time()
    return answered, refused


class Beside(threading.Thread):
    """A client that logs in and buys a ticket, over and over, one try each. `came` has the moment, and whether each of
    the two got its ticket."""

    def __init__(self, server, number):
        super().__init__(daemon=True)
        self.number, self.came, self.is_over = number, [], False
        self.peer = socket.socket(socket.AF_INET, socket.SOCK_DGRAM)
        self.peer.connect(server.udp)
        self.peer.settimeout(1)
        self.start()

    def ask(self, request):
        with contextlib.suppress(TimeoutError):
            self.peer.send(request)
            return self.peer.recv(65536)
        return b""

    def run(self):
        known, turns = None, itertools.count()
        while not self.is_over:
            reply = self.ask(as_req(REALM, client_of(self.number)))
            known = (client_of(self.number), *ticket_in(KEY, reply)) if reply else known
            bought = known and self.ask(usual_request(known, int(time.time()), next(turns)))
            self.came.append((time.time(), bool(reply), bool(bought) and bought[0] == TICKET))
            time.sleep(0.2)

    def shares(self, since, until):
        """How many of 100 logins, and of 100 tickets, came between these moments."""
        found = [each for each in self.came if since <= each[0] < until]
        return [f"{sum(each[place] for each in found) * 100 / max(1, len(found)):.0f}" for place in (1, 2)]

    def end(self):
        self.is_over = True
        self.join()


def measure_bound(words, folder):
    environment = {
        **os.environ,
        **({"LD_PRELOAD": words.preload, "MALLOC_CONF": "background_thread:true"} if words.preload else {})
    }
    server = RealmServer(words.kdcd, database(os.path.join(folder, "bound"), words.takers + 1), environment=environment)
    most = words.data << 20
    resource.prlimit(server.process.pid, resource.RLIMIT_DATA, (most, most))
    with workers(words.workers, 0) as pool:
        known = shared(pool, logged_in, range(words.takers), server.udp)
        beside, start = Beside(server, words.takers), time.time()
        calls = [pool.submit(taking, each, server.tcp, words.remembered[0]) for each in known]
        found = [call.result() for call in calls]
    over, reached = time.time(), min((at for _, at in found if at), default=None)
    answered = sum(count for count, _ in found)
    print(
        f"bound: {words.takers} clients, each with {words.remembered[0]} requests of the longest, under {words.data} "
        f"MiB of data: {answered} tickets in {over - start:.0f} s; {server.resident_kib()} KiB then", flush=True,
    )
    if reached is None:
        print("  WRONG: the bound was not reached")
    else:
        before, at_it = beside.shares(start, reached), beside.shares(reached, over)
        print(
            f"  it was reached after {reached - start:.0f} s. Of 100 logins and 100 tickets beside it came "
            f"{' and '.join(before)} before that, and {' and '.join(at_it)} from then on"
        )
    last = well_again(server, beside, over + 2 * SKEW + 2 * MINUTE)
    if last:
        since = beside.shares(over, last)
        print(
            f"  all is well {last - over:.0f} s after they stopped; of 100 logins and 100 tickets "
            f"{' and '.join(since)} came until then; {server.resident_kib()} KiB then", flush=True,
        )
    else:
        print("  WRONG: it did not get well")
    beside.end()
    time.sleep(FREEING)
    print(f"  {server.resident_kib()} KiB after {FREEING} s more", flush=True)
    lives = server.process.poll() is None
    server.end()
    return int(not (lives and last and reached))


def well_again(server, beside, end):
    """The moment at which 100 longest requests of a client are answered again, and all that was asked beside them in
    the last 5 seconds."""
    turns = itertools.count(500_000, BATCH)
    while time.time() < end:
        time.sleep(1)
        now = time.time()
        if not all(login and ticket for at, login, ticket in beside.came if at > now - 5):
            continue
        with contextlib.suppress(OSError, EOFError):
            [known] = logged_in([0], server.udp)
            for place in itertools.islice(turns, 7):
                replies_to(server, [
                    usual_request(known, int(now) - SKEW + 5, place + turn, LONG_SERVICE) for turn in range(BATCH)
                ])
            return now
    return None


PARTS = {"burst": measure_burst, "pinned": measure_pinned, "full": measure_full, "bound": measure_bound}


def main():
    words = argparse.ArgumentParser(description=__doc__, formatter_class=argparse.RawDescriptionHelpFormatter)
    words.add_argument("--kdcd", default="crates/kdcd/out/kdcd")
    words.add_argument("--only", nargs="+", choices=PARTS, default=list(PARTS), metavar="PART", help=", ".join(PARTS))
    words.add_argument("--clients", type=int, default=10_000)
    words.add_argument("--tickets", type=int, default=10)
    words.add_argument("--bursts", type=int, default=1, help="how many bursts follow one another")
    words.add_argument(
        "--seconds", type=int, default=200, help="within how many seconds a burst has to be made and sent, at most 290"
    )
    words.add_argument("--ask", action="store_true", help="ask on while a burst is dropped")
    words.add_argument("--workers", type=int, default=3, help="how many processes make requests")
    words.add_argument("--nice", type=int, default=19, help="how far these stand back")
    words.add_argument("--remembered", type=int, nargs="+", default=[4096, 65536])
    words.add_argument("--takers", type=int, default=40, help="how many clients pin all they can")
    words.add_argument("--data", type=int, default=768, help="the bound on the process's data, in MiB")
    words.add_argument("--preload", help="the library of another allocator")
    words = words.parse_args()
    with tempfile.TemporaryDirectory() as folder, ending():
        odd = sum(PARTS[part](words, folder) for part in words.only)
    sys.exit(1 if odd else 0)


if __name__ == "__main__":
    main()
