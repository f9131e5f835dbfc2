"""Two PostgreSQL servers of their own, for bindings/postgres/try and bindings/postgres/speed.

They stand in a folder that holds copies of PostgreSQL's programs, and listen on unix sockets there. PostgreSQL's programs find
all else from where they stand, so the extension is installed into that folder, and nothing else is touched."""
import os
import pathlib
import shutil
import subprocess

HERE = pathlib.Path(__file__).resolve().parent
TOP = HERE.parent.parent
OUT = TOP / "out" / "bindings" / "postgres"
PG_CONFIG = os.environ.get("PG_CONFIG") or "pg_config"
# The second server is the first port and one. A socket is in the temporary folder, so no other server is met.
PORT = 5432
SETTINGS = "listen_addresses = ''\nfsync = off\nunix_socket_directories = '{room}'\nport = {port}\n"


def run(*words, **how):
    how = {"stdout": subprocess.PIPE, "stderr": subprocess.STDOUT, "timeout": 300, **how}
    return subprocess.run([*map(str, words)], **how)


def config(word):
    return pathlib.Path(run(PG_CONFIG, f"--{word}", check=True).stdout.decode().strip())


def link_all(source, target, left_out=()):
    """Makes a folder of links to all that is in another, but for what is there already."""
    target.mkdir(parents=True, exist_ok=True)
    for it in source.iterdir():
        if it.name not in left_out and not (target / it.name).exists():
            (target / it.name).symlink_to(it)


class Servers:
    """Two servers in a folder of their own."""

    def __init__(self, room):
        self.room = room
        self.user = ["setpriv", "--reuid", "postgres", "--regid", "postgres", "--clear-groups"] if os.getuid() == 0 else []
        self.bin = self.below(config("bindir"))
        self.environment = {**os.environ, "PGHOST": str(room), "PGPORT": str(PORT), "PGUSER": "postgres", "PGDATABASE": "postgres"}

    def below(self, path):
        """The place of a path of PostgreSQL in the folder: its programs find all else from where they stand."""
        return self.room / path.relative_to("/")

    def copy_programs(self):
        self.bin.mkdir(parents=True)
        for it in ("postgres", "initdb", "pg_ctl"):
            shutil.copy2(config("bindir") / it, self.bin)
        link_all(config("pkglibdir"), self.below(config("pkglibdir")))
        link_all(config("sharedir"), self.below(config("sharedir")), ["extension"])
        link_all(config("sharedir") / "extension", self.below(config("sharedir")) / "extension")

    def begin(self):
        """Makes the data of both and starts them, side by side. Returns what went wrong."""
        if self.user:
            shutil.chown(self.room, "postgres", "postgres")
        data = [self.room / "data0", self.room / "data1"]
        words = ["-U", "postgres", "-A", "trust", "-E", "UTF8", "--locale=C.UTF-8", "--no-sync"]
        made = [subprocess.Popen([*self.user, self.bin / "initdb", "-D", it, *words], cwd="/", stdout=subprocess.DEVNULL) for it in data]
        if any([it.wait() for it in made]):
            return "initdb failed"
        for number, it in enumerate(data):
            with open(it / "postgresql.conf", "a", encoding="utf-8") as settings:
                settings.write(SETTINGS.format(room=self.room, port=PORT + number))
            log = self.room / f"log{number}"
            if run(*self.user, self.bin / "pg_ctl", "-D", it, "-l", log, "-w", "start", stdout=subprocess.DEVNULL, cwd="/").returncode:
                return log.read_text(errors="replace") if log.exists() else "it did not start"
        return ""

    def end(self):
        for it in ("data0", "data1"):
            if (self.room / it / "postmaster.pid").exists():
                run(*self.user, self.bin / "pg_ctl", "-D", self.room / it, "-m", "immediate", "-w", "stop", cwd="/")

    def call(self, *words, **how):
        return run(*words, env=self.environment, **how)

    def ask(self, script, database="postgres", port=PORT, user="postgres"):
        """Returns what psql says of a script: its rows, and errors."""
        words = ["psql", "-qXAt", "-v", "ON_ERROR_STOP=1", "-p", port, "-U", user, "-d", database]
        return self.call(*words, input=script if isinstance(script, bytes) else script.encode()).stdout

    def make(self, *words, folder=OUT):
        folder.mkdir(parents=True, exist_ok=True)
        more = ["with_llvm=no", f"PG_CONFIG={PG_CONFIG}", f"DESTDIR={self.room}", *words]
        return self.call("make", "-s", "-f", HERE / "Makefile", *more, cwd=folder)

    def __enter__(self):
        os.chmod(self.room, 0o755)
        self.copy_programs()
        return self

    def __exit__(self, *_):
        self.end()


def lacking():
    """Returns what is not there, if something is not."""
    for it, package in ((PG_CONFIG, "postgresql-server-dev-15"), ("make", "make"), ("psql", "postgresql-15")):
        if not shutil.which(it):
            return f"no {it} ({package})"
    for path, package in ((config("bindir") / "initdb", "postgresql-15"), (config("includedir-server") / "postgres.h", "postgresql-server-dev-15")):
        if not path.exists():
            return f"no {path.name} ({package})"
    return ""
