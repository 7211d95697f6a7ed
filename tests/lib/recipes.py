"""Tries the recipes of examples/recipes: the commands of their page, with what they print, over a KDC of MIT krb5 where that is
installed; and each recipe on captures and keytabs that are cut. What needs a program that is not installed is left out, and said."""

import contextlib
import os
import pathlib
import shutil
import socket
import subprocess
import tempfile
import time

import readme
from program import KRBLS

TOP = pathlib.Path(__file__).resolve().parents[2]
RECIPES = TOP / "examples/recipes"
# Programs that some commands name.
TOOLS = ("jq", "sqlite3", "tshark", "klist")
KDC = ("krb5kdc", "kdb5_util", "kadmin.local")
CONFIG = """[libdefaults]
 default_realm = CORPUS.TEST
[realms]
 CORPUS.TEST = {
  database_module = CORPUS.TEST
  key_stash_file = %(folder)s/stash
  acl_file = %(folder)s/acl
 }
[kdcdefaults]
 kdc_listen = 127.0.0.1:%(port)d
 kdc_tcp_listen = 127.0.0.1:%(port)d
[dbmodules]
 CORPUS.TEST = {
  db_library = db2
  database_name = %(folder)s/principal
 }
"""
# Where MIT krb5's programs are that no user runs.
PLACES = f"{os.environ['PATH']}:/usr/sbin:/usr/local/sbin"
# Where captures and a keytab are cut.
CUTS = {
    RECIPES / "data/incident.pcap": (0, 10, 24, 300, 1000, 5001, 12345, 19000),
    TOP / "tests/data/captures/mit-kpasswd-udp.capture": (2000, 5555),
    RECIPES / "data/web.keytab": (2, 5, 200),
}


@contextlib.contextmanager
def kdc():
    """The port, on the loopback, of a KDC of MIT krb5 that has alice, with pre-authentication, and bob, without; None if it is not installed."""
    if any(shutil.which(tool, path=PLACES) is None for tool in KDC):
        yield None
        return
    with socket.socket() as free:
        free.bind(("127.0.0.1", 0))
        port = free.getsockname()[1]
    with tempfile.TemporaryDirectory() as folder:
        config = pathlib.Path(folder) / "conf"
        config.write_text(CONFIG % {"port": port, "folder": folder})
        env = {**os.environ, "PATH": PLACES, "KRB5_CONFIG": str(config), "KRB5_KDC_PROFILE": str(config)}
        quiet = {"env": env, "stdout": subprocess.DEVNULL, "stderr": subprocess.DEVNULL}
        for words in (
            ["kdb5_util", "create", "-s", "-P", "master", "-sf", f"{folder}/stash"],
            ["kadmin.local", "-q", "addprinc -pw alice +requires_preauth alice"],
            ["kadmin.local", "-q", "addprinc -pw bob bob"],
        ):
            subprocess.run(words, timeout=300, check=True, **quiet)
        with subprocess.Popen(["krb5kdc", "-n", "-P", f"{folder}/pid"], **quiet) as run:
            try:
                wait_for(port)
                yield port
            finally:
                run.terminate()


def wait_for(port):
    for _ in range(600):
        with socket.socket() as link:
            if link.connect_ex(("127.0.0.1", port)) == 0:
                return
        time.sleep(0.1)
    raise TimeoutError("the KDC does not listen")


def fault_of(name, words, octets):
    """What a recipe says on the standard error of what was listed, which has to be nothing."""
    run = subprocess.run(words, input=octets, capture_output=True)
    return f"{name}: {run.stderr.decode()}" if run.stderr or run.returncode else None


def of_cut_files():
    """Of each recipe, and each file that is cut, what is wrong or None."""
    has_jq, has_sqlite = shutil.which("jq"), shutil.which("sqlite3")
    with tempfile.TemporaryDirectory() as folder:
        cut = pathlib.Path(folder) / "cut"
        for number, (path, size) in enumerate((path, size) for path, sizes in CUTS.items() for size in sizes):
            cut.write_bytes(path.read_bytes()[:size])
            listing = subprocess.run([KRBLS, "--json", cut, cut], capture_output=True).stdout
            name = f"{path.name} cut at {size}"
            yield fault_of(f"pairs of {name}", [RECIPES / "pairs"], listing)
            pairs = subprocess.run([RECIPES / "pairs"], input=listing, capture_output=True).stdout
            for recipe in sorted(RECIPES.glob("*.jq")) if has_jq else []:
                text = recipe.read_text()
                words = ["jq", "-nrf" if "(jq -nr)" in text or "jq -nrf" in text else "-rf", recipe]
                yield fault_of(f"{recipe.name} of {name}", words, pairs if "Of the pairs" in text else listing)
            if has_sqlite:
                database = f"{folder}/{number}.db"
                yield fault_of(f"tables.sql of {name}", ["sqlite3", database, f".read {RECIPES}/tables.sql"], listing)


def of_page():
    """For each command of the page how it differs from what that has. They run in a folder that is as the top of the repository."""
    missing = {tool: tool for tool in TOOLS if shutil.which(tool) is None}
    left_out = 0
    with tempfile.TemporaryDirectory() as name, kdc() as port:
        folder = pathlib.Path(name)
        for path in ("examples", "tests"):
            (folder / path).symlink_to(TOP / path)
        (folder / "bin").mkdir()
        (folder / "bin/krbls").symlink_to(KRBLS)
        env = {**os.environ, "PATH": f"{folder}/bin:{os.environ['PATH']}", "LC_ALL": "C", "TZ": "UTC", "PORT": str(port)}
        if port is None:
            missing["$PORT"] = "krb5kdc"
        for command, wanted in readme.examples((RECIPES / "README.md").read_text()):
            lacking = next((tool for sign, tool in missing.items() if sign in command), None)
            if lacking:
                left_out += 1
                print(f"recipes: no {lacking}, so this was not tried: {command}")
                continue
            run = subprocess.run(["bash", "-c", command], cwd=folder, stdout=subprocess.PIPE, stderr=subprocess.STDOUT, env=env)
            got = run.stdout.decode("latin-1")
            yield None if got == wanted else f"{command}\nwanted {wanted}\ngot    {got}"
    if left_out:
        print(f"recipes: {left_out} commands were left out")


def faults():
    """Of each case what is wrong, or None."""
    yield from of_page()
    yield from of_cut_files()
