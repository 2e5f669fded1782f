"""The name server of examples/server, as benches/servers/run starts it."""

import pathlib
import subprocess
import sys
import time

TOP = pathlib.Path(__file__).resolve().parents[2]
sys.path.insert(0, str(TOP / "tests/validators"))
from served import build  # noqa: E402


class Zermuita:
    """As many servers as there are to be threads, which share a folder and a port."""

    NAME, PORT, MORE = "examples/server", 5401, ()
    program = None

    @classmethod
    def build(cls, room, prefix):
        cls.program = build(room, prefix)

    def __init__(self, room, threads, options):
        self.room, self.threads = room, threads
        self.chain = "nsec 0 604800" if options["chain"] == "nsec" else "nsec3 0 - 0 604800"
        self.processes = []

    def title(self):
        return self.NAME

    def control(self):
        """The words that send a command."""
        return [*self.program, "--ctl"]

    def __enter__(self):
        Zermuita.count = getattr(Zermuita, "count", 0) + 1
        folder = self.room / f"server-{Zermuita.count}"
        (folder / "keys").mkdir(parents=True)
        (folder / "keys/first.pem").symlink_to(self.room / "key.pem")
        try:
            self.start(folder)
            roll = "report1 algorithm-roll 0", "wait1 algorithm-roll", "report2 algorithm-roll 0", "wait2 algorithm-roll"
            for command in ("key csk first", "start algorithm-roll - first", *roll, "done algorithm-roll"):
                subprocess.run([*self.control(), folder, *command.split()], check=True, capture_output=True)
            for _ in range(1, self.threads):
                self.start(folder)
        except BaseException:
            self.__exit__()
            raise
        return self

    def start(self, folder):
        options = "--share", "--rate=0", f"--port={self.PORT}", f"--chain={self.chain}", f"--log={folder}/log", *self.MORE
        words = [*self.program, *options, folder, self.room / "zone"]
        self.processes.append(subprocess.Popen([*map(str, words)], stdout=subprocess.PIPE))
        self.processes[-1].stdout.readline()

    def before_warm(self):
        """Signatures are dropped with their minute: waits for one that lasts."""
        if time.time() % 60 > 45:
            time.sleep(61 - time.time() % 60)

    def pids(self):
        return [it.pid for it in self.processes]

    def __exit__(self, *_error):
        for it in self.processes:
            it.terminate()
            it.wait()
            it.stdout.close()


class ZermuitaWithoutResponses(Zermuita):
    """The same without responses that are kept."""

    NAME, PORT, MORE = "examples/server, no responses kept", 5406, ("--responses=0",)


class Serve(Zermuita):
    """`zermuita serve`, with as many threads: its words are those of ZERMUITA_SERVER in the environment."""

    NAME, PORT, MORE = "zermuita serve", 5407, ()

    def control(self):
        return [*self.program[: self.program.index("run")], "ctl"]

    def start(self, folder):
        if not self.processes:
            words = [*self.program, f"--threads={self.threads}", "--rate=0", f"--port={self.PORT}", f"--chain={self.chain}", f"--log={folder}/log"]
            words += [*self.MORE, folder, self.room / "zone"]
            self.processes.append(subprocess.Popen([*map(str, words)], stdout=subprocess.PIPE))
            self.processes[-1].stdout.readline()


class ServeWithoutResponses(Serve):
    """The same without responses that are kept."""

    NAME, PORT, MORE = "zermuita serve, no responses kept", 5408, ("--responses=0",)
