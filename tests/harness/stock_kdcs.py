"""One realm served by three KDCs: `kdcd serve`, MIT's `krb5kdc` and Heimdal's `kdc`. For the scripts beside this file;
Linux and Python 3. The stock KDCs are Debian's packages krb5-kdc and krb5-admin-server, heimdal-kdc and
heimdal-clients. They can't all be installed, so each is named by a folder: `/` if it is installed, else a folder in
which `dpkg -x` has unpacked it with the libraries that the system lacks, as `fetched` does."""

import dataclasses
import glob
import os
import pathlib
import re
import subprocess
import sys
import tempfile
import time

from harness.kerberos import as_req
from harness.peer import Peer
from harness.processes import PATIENCE, RUNNING, SLOWNESS, family, kill
from harness.programs import programs_in

NAMES = {
    17: "aes128-cts-hmac-sha1-96",
    18: "aes256-cts-hmac-sha1-96",
    19: "aes128-cts-hmac-sha256-128",
    20: "aes256-cts-hmac-sha384-192",
}

PACKAGES = {
    "mit": ("krb5-user", "krb5-kdc", "krb5-admin-server", "libkrb5-dev"),
    "heimdal": ("heimdal-clients", "heimdal-kdc"),
}


def fetched(folder):
    """Unpacks the packages of each KDC below this folder, with the packages that they need and the system lacks.
    Returns their folders. Installs nothing."""
    found = {}
    for name in PACKAGES:
        found[name] = unpack(name, folder / name)
        if not found[name]:
            # Without a network each further try would wait as long.
            break
    return {name: root for name, root in found.items() if root}


def unpack(name, root):
    """The folder with the packages of one KDC. It is made as a whole: an existing folder is used as it is."""
    if root.exists():
        return str(root)
    root.parent.mkdir(parents=True, exist_ok=True)
    with tempfile.TemporaryDirectory(prefix=f".{name}-", dir=root.parent) as folder:
        made = pathlib.Path(folder, "root")
        made.mkdir()
        if not unpack_into(name, made):
            return ""
        made.rename(root)
    return str(root)


def unpack_into(name, root):
    """Whether the packages of one KDC could be unpacked."""
    apt = ["apt-get", "-o", "Acquire::http::Timeout=10", "-o", "Acquire::Retries=1"]
    how = {"cwd": root, "stdin": subprocess.DEVNULL, "capture_output": True, "text": True, "timeout": PATIENCE}
    simulate = [*apt, "install", "--simulate", "--no-install-recommends", *PACKAGES[name]]
    try:
        plan = subprocess.run(simulate, **how)
        if plan.returncode and os.geteuid() == 0:
            # A container may start without lists of packages.
            subprocess.run([*apt, "update"], **how)
            plan = subprocess.run(simulate, **how)
        names = re.findall(r"^Inst (\S+)", plan.stdout, re.M)
        subprocess.run([*apt, "download", *(names or PACKAGES[name])], check=True, **how)
        for package in root.glob("*.deb"):
            subprocess.run(["dpkg", "-x", package, root], check=True, **how)
            package.unlink()
    except (OSError, subprocess.SubprocessError):
        return False
    return True


@dataclasses.dataclass
class Principal:
    """A principal of the realm, besides `krbtgt/REALM`. Without a password its keys are random."""

    name: str
    password: str | None = None
    preauth: bool = True
    types: tuple = (18,)


class Running:
    """A server that listens on this port of 127.0.0.1, with all processes that it started."""

    def __init__(self, words, realm, port, **how):
        self.process = subprocess.Popen(words, **how)
        RUNNING.append(self.process)
        self.udp = ("127.0.0.1", port)
        self.address = f"127.0.0.1:{port}"
        peer = Peer(self)
        end = time.monotonic() + 10 * SLOWNESS
        while time.monotonic() < end and self.process.poll() is None:
            try:
                peer.ask(as_req(realm.encode(), b"nobody"))
                return
            except OSError:
                time.sleep(0.1)
        kill(self.process)
        sys.exit(f"{words[0]} does not answer")

    def processor_seconds(self):
        used = 0
        for pid in family(self.process.pid):
            try:
                used += sum(
                    int(task.read_text().split()[0]) for task in pathlib.Path(f"/proc/{pid}").glob("task/*/schedstat")
                )
            except (OSError, IndexError):
                continue
        return used / 1e9

    def end(self):
        kill(self.process)


def keep_to_one_processor():
    """Keeps this process, which is the client, and the servers that it starts on one processor, and returns the others.
    Otherwise the system may or may not wake another processor for each message, which costs up to half of a login and
    is not the server's work."""
    processors = os.sched_getaffinity(0)
    one = max(processors)
    os.sched_setaffinity(0, {one})
    return processors - {one}


def run(words, **how):
    ran = subprocess.run(
        words, stdin=subprocess.DEVNULL, stdout=subprocess.PIPE, stderr=subprocess.STDOUT, text=True, timeout=PATIENCE,
        **how
    )
    if ran.returncode:
        sys.exit(f"{' '.join(map(str, words))}: {ran.stdout}")


def kdcd(programs, folder, realm, principals, port, log=None):
    """Starts `kdcd serve`. `programs` is a folder with `kadm` and `kdcd`, or the folder of the crates, with each at
    NAME/out/NAME. Standard error goes to a file in `folder`, or to `log`, with a line for each request."""
    found = programs_in(programs, ("kadm", "kdcd"))
    kadm = lambda sub, *words: run([found["kadm"], sub, "--db", folder / "database", *words])
    kadm("init", "--realm", realm)
    for each in principals:
        types = ("--types", ",".join(map(str, each.types)))
        if each.password is None:
            kadm("random", "--name", each.name, *types)
        else:
            (folder / "password").write_text(each.password + "\n")
            kadm("add", "--name", each.name, "--password-file", folder / "password", "--service", *types)
        if not each.preauth:
            kadm("policy", "--name", each.name, "--field", "preauth", "--value", "false")
    address = f"127.0.0.1:{port}"
    words = [
        found["kdcd"], "serve", "--db", folder / "database", "--udp", address, "--tcp", address, "--first",
        *["--log"] * (log is not None)
    ]
    errors = open(folder / "log", "w") if log is None else log
    return Running(words, realm, port, stdout=subprocess.DEVNULL, stderr=errors)


def unpacked(*roots):
    """The environment and the programs of packages that are unpacked below these folders."""
    servers = f"/usr/sbin:/usr/lib/heimdal-servers:{os.environ['PATH']}"
    roots = [root for root in roots if root != "/"]
    folders = [folder for root in roots for folder in glob.glob(f"{root}/**/lib/**/", recursive=True)]
    libraries = [folder for folder in folders if glob.glob(f"{folder}/*.so*")]
    programs = [f"{root}/usr/{each}" for root in roots for each in ("sbin", "bin", "lib/heimdal-servers")]
    found = {**os.environ, "PATH": ":".join([*programs, servers])}
    return {**found, "LD_LIBRARY_PATH": ":".join(libraries)} if libraries else found


def of_mit(root, folder):
    """The environment of MIT's programs beside a KDC in this folder."""
    return {**unpacked(root), "KRB5_CONFIG": str(folder / "krb5.conf"), "KRB5_KDC_PROFILE": str(folder / "kdc.conf")}


def keytab(kdc, root, folder, name):
    """Writes the keys of a service of a KDC in this folder to a keytab, and returns its path."""
    file = str(folder / f"{name}.keytab")
    if kdc == "kdcd":
        run(
            [programs_in(root, ("kadm",))["kadm"], "keytab", "--db", folder / "database", "--name", name, "--out", file]
        )
    elif kdc == "mit":
        run(["kadmin.local", "-q", f"ktadd -norandkey -k {file} {name}"], env=of_mit(root, folder))
    else:
        configuration = f"--config-file={folder}/kdc-18.conf"
        run(["kadmin.heimdal", "-l", configuration, "ext_keytab", f"--keytab={file}", name], env=unpacked(root))
    return file


def mit(root, folder, realm, principals, port):
    (folder / "krb5.conf").write_text(f"""
[libdefaults]
    default_realm = {realm}
[dbmodules]
    db_module_dir = {next(iter(glob.glob(f"{root}/usr/lib/*/krb5/plugins/kdb")), "")}
[logging]
    kdc = FILE:{folder}/kdc.log
""")
    (folder / "kdc.conf").write_text(f"""
[kdcdefaults]
    kdc_listen = 127.0.0.1:{port}
    kdc_tcp_listen = 127.0.0.1:{port}
[realms]
    {realm} = {{
        database_name = {folder}/principal
        key_stash_file = {folder}/stash
        acl_file = {folder}/acl
        supported_enctypes = {NAMES[18]}:normal
    }}
""")
    known = of_mit(root, folder)
    run(["kdb5_util", "create", "-s", "-P", "master"], env=known)
    for each in principals:
        types = ",".join(f"{NAMES[etype]}:normal" for etype in each.types)
        secret = "-randkey" if each.password is None else f'-pw "{each.password}"'
        preauth = "+requires_preauth" if each.preauth and each.password is not None else "-requires_preauth"
        run(["kadmin.local", "-q", f"addprinc {preauth} -e {types} {secret} {each.name}"], env=known)
    return Running(["krb5kdc", "-n"], realm, port, env=known, stdout=subprocess.DEVNULL, stderr=subprocess.DEVNULL)


def heimdal(root, folder, realm, principals, port):
    def configuration(types):
        file = folder / f"kdc-{'-'.join(map(str, types))}.conf"
        file.write_text(f"""
[libdefaults]
    default_realm = {realm}
[kdc]
    database = {{
        dbname = {folder}/heimdal
        mkey_file = {folder}/m-key
        log_file = {folder}/iprop-log
    }}
    require-preauth = no
    ports = {port}
    addresses = 127.0.0.1
[kadmin]
    default_keys = {" ".join(f"{NAMES[etype]}:pw-salt" for etype in types)}
[logging]
    kdc = 0-/FILE:{folder}/kdc.log
""")
        return file

    known = unpacked(root)
    kadmin = lambda types, *words: run(
        ["kadmin.heimdal", "-l", f"--config-file={configuration(types)}", *words], env=known
    )
    kadmin((18,), "init", "--realm-max-ticket-life=1 day", "--realm-max-renewable-life=1 week", realm)
    for each in principals:
        secret = "--random-key" if each.password is None else f"--password={each.password}"
        kadmin(each.types, "add", "--use-defaults", secret, each.name)
        if each.preauth and each.password is not None:
            kadmin((18,), "modify", "--attributes=requires-pre-auth", each.name)
    words = ["kdc", f"--config-file={configuration((18,))}"]
    return Running(words, realm, port, env=known, stdout=subprocess.DEVNULL, stderr=subprocess.DEVNULL)
