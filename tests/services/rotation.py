"""New keys of a service, while clients log in: `keytab --next` writes them, the service gets the keytab, and `random
--from` makes them current. No login may fail at any moment."""

import os
import shutil
import threading
import time

from harness.checks import expect
from harness.kerberos import ap_req, authenticator, credentials
from harness.processes import PATIENCE
from harness.programs import SERVICE_EXAMPLE
from harness.tests import test
from services.whole_way import SERVICE, Kdc, Lines, Place

LOGINS = 1000
# The client asks for a new ticket before each FRESH logins.
FRESH = 5


class Client(threading.Thread):
    """Logs in to the service again and again, with tickets of before and with new ones."""

    def __init__(self, place, kdc, service):
        super().__init__()
        self.place, self.kdc, self.service = place, kdc, service
        self.done, self.refusals, self.versions, self.fault = 0, [], set(), None

    def run(self):
        try:
            tickets = []
            while self.done < LOGINS:
                if self.done % FRESH == 0:
                    tickets = [*tickets[-FRESH:], self.ticket()]
                # the oldest of some tickets, and the newest
                for key, ticket in {tickets[0], tickets[-1]}:
                    self.log_in(key, ticket)
        except Exception as error:  # the test reports it
            self.fault = error

    def ticket(self):
        """A ticket of the service that was issued now."""
        cache = self.place.path("fresh")
        shutil.copyfile(self.place.path("cache"), cache)
        words = ("--kdc", self.kdc.address, "--cache", cache, "--name", SERVICE, "--seed", self.place.seed())
        self.versions.add(self.place.run("kclient", "kvno", *words))
        with open(cache, "rb") as file:
            return next((key, ticket) for parts, key, ticket in credentials(file.read())
                        if b"/".join(parts).decode() == SERVICE)

    def log_in(self, key, ticket):
        moment = authenticator(b"A.B", b"u", int(time.time()), self.done)
        answer = self.service.ask(ap_req(ticket, key, 11, moment, bytes(4)).hex())
        if not answer.startswith("accepted u@A.B "):
            self.refusals.append(answer)
        self.done += 1

    def wait(self, count):
        """Waits until this many logins are done."""
        late = time.monotonic() + PATIENCE
        while self.done < count and self.is_alive() and time.monotonic() < late:
            time.sleep(0.01)


def prepare(trial):
    """A realm with the service, whose keytab the example of a service has, and a client's TGT in a cache."""
    place = Place({**trial.programs, "mk_req": None}, trial.folder)
    place.make_realm(18)
    kdc = Kdc(place)
    words = ("--kdc", kdc.address, "--cache", place.path("cache"), "--realm", "A.B", "--name", "u")
    words += ("--password-file", place.path("password"), "--seed", place.seed())
    expect("kinit", place.run("kclient", "kinit", *words), "ok\n")
    return place, kdc, Lines(place.programs[SERVICE_EXAMPLE], place.path("keytab"), "first")


@test("kadm", "kdcd", "kclient", SERVICE_EXAMPLE, seconds=60)
def staged(trial):
    """New keys are brought to a service, and then become current, beside 1,000 logins: none fails."""
    trial.enter("staged")
    place, kdc, service = prepare(trial)
    client = Client(place, kdc, service)
    client.start()
    client.wait(LOGINS // 4)
    with open(place.path("database"), "rb") as file:
        database = file.read()
    place.kadm("keytab", "--next", "--name", SERVICE, "--out", place.path("next"))
    with open(place.path("database"), "rb") as file:
        trial.same("the database beside keytab --next", file.read(), database)
    client.wait(LOGINS // 2)
    # as a host takes a keytab: a copy of its own, which replaces the old one
    shutil.copyfile(place.path("next"), place.path("keytab.new"))
    os.replace(place.path("keytab.new"), place.path("keytab"))
    client.wait(LOGINS * 5 // 8)
    place.kadm("random", "--name", SERVICE, "--from", place.path("next"))
    client.join()
    if client.fault:
        raise client.fault
    trial.same("the logins that failed", client.refusals, [])
    trial.same("the logins", client.done >= LOGINS, True)
    wanted = {f"{SERVICE} kvno 1\n", f"{SERVICE} kvno 2\n"}
    trial.same("the versions of the tickets", client.versions, wanted)
    service.end()
    kdc.end()
