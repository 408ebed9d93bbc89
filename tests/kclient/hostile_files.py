"""Caches and keytabs that are pipes, devices or files of other users."""

import os

from harness.hostile import EMPTY, Kdc, no_connection, no_datagram
from harness.tests import test
from kclient.hostile import CACHE, Hostile


@test("kclient", trial=Hostile, seconds=2)
def files(hostile):
    """Caches and keytabs that are not regular files, and caches of other users."""
    hostile.enter("files")
    hostile.write("cc", CACHE)
    hostile.write("pw", "a password\n")
    os.mkfifo(hostile.folder / "pipe")
    kdc = Kdc(no_datagram, no_connection)
    to_kdc = ["--kdc", kdc.address]
    as_u = [*to_kdc, "--realm", "A.B", "--name", "u"]
    no_file = 3, "failed", ("it is not a file",)
    for path in ("pipe", "/dev/zero"):
        for words in (
            ["klist", "--cache", path], ["klist", "--keytab", path], ["kdestroy", "--cache", path],
            ["kvno", *to_kdc, "--cache", path, "--name", "h"], ["kinit", "--renew", *to_kdc, "--cache", path],
            ["kinit", *as_u, "--cache", "cc", "--keytab", path],
            ["kvno", *to_kdc, "--cache", "own", "--name", "h", "--keytab", path],
        ):
            hostile.folder.joinpath("own").write_bytes(EMPTY)
            hostile.folder.joinpath("own").chmod(0o600)
            ran, took = hostile.begin(words, CACHE)
            hostile.note(" ".join(words), "; ".join(hostile.faults((ran, took), no_file, CACHE)))
    (hostile.folder / "folder").mkdir()
    os.mkfifo(hostile.folder / "folder" / "in_it")
    hostile.write("including", "include pipe\nincludedir folder\n")
    for path, passed_over in (
        ("pipe", ("pipe",)), ("/dev/zero", ("/dev/zero",)), ("including", ("pipe", "folder/in_it"))
    ):
        hostile.environment["KRB5_CONFIG"] = path
        ran, took = hostile.begin(["kinit", "--name", "u", "--password-file", "pw", "--cache", "cc"], CACHE)
        said = (
            *[f"kclient: {each}: it is not a file" for each in passed_over], f"kclient: {path}: it has no default_realm"
        )
        faults = hostile.faults((ran, took), (1, "refused NoRealm", said), CACHE)
        hostile.note(f"{path} as krb5.conf", "; ".join(faults))
    not_ours = 1, "refused NotOurs", ("belongs to another user",)
    changes = [
        ("other users may write", lambda path: path.chmod(0o602)), ("a group may write", lambda path: path.chmod(0o620))
    ]
    if os.geteuid() == 0:
        changes.append(("of another user", lambda path: os.chown(path, 65534, 65534)))
    for what, change in changes:
        for command in (["klist"], ["kdestroy"], ["kvno", *to_kdc, "--name", "h"], ["kinit", "--renew", *to_kdc]):
            path = hostile.folder / "theirs"
            path.unlink(missing_ok=True)
            path.write_bytes(EMPTY)
            path.chmod(0o600)
            change(path)
            ran, took = hostile.begin([*command, "--cache", "theirs"], CACHE)
            faults = hostile.faults((ran, took), not_ours, CACHE)
            if not path.exists():
                faults.append("the cache is gone")
            hostile.note(f"a cache {what}: {command[0]}", "; ".join(faults))
    if kdc.datagrams or kdc.connections:
        hostile.note("nothing is sent", "something is sent")
