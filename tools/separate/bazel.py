"""A folder that Bazel builds with the rules of builds/bazel, and what each build called."""
import json
import os
import shutil
import subprocess
import sys

TOP = os.path.dirname(os.path.dirname(os.path.dirname(os.path.abspath(__file__))))
RULES = f"{TOP}/builds/bazel"
# a server of Bazel takes minutes to start on a busy machine, and ends by itself if it is left
PATIENCE = 1800
STARTUP = ("--local_startup_timeout_secs=600", "--max_idle_secs=600")


def entries(path):
    """The objects of a log: one behind the other."""
    with open(path, encoding="utf-8") as file:
        text = file.read()
    at, found, decoder = 0, [], json.JSONDecoder()
    while text[at:].strip():
        entry, at = decoder.raw_decode(text, at + len(text[at:]) - len(text[at:].lstrip()))
        found.append(entry)
    return found


class Outcome:
    """The end of a build, and what it called or took from a cache."""

    def __init__(self, status, said, calls):
        self.status, self.said, self.calls = status, said, calls

    def __repr__(self):
        return f"status {self.status}: {self.said[-500:]}"

    def of(self, mnemonic, is_cached=False):
        return [it for it in self.calls if it["mnemonic"] == mnemonic and it["remoteCacheHit"] == is_cached]

    def compiled(self, is_cached=False):
        """The modules that were compiled, or that a cache had."""
        return {os.path.basename(it["listedOutputs"][0]).partition(".")[0] for it in self.of("M2Compile", is_cached)}

    def linked(self, is_cached=False):
        return len(self.of("M2Link", is_cached))

    def inputs(self):
        """Of each module, the names of the files that stood in its sandbox."""
        return {os.path.basename(it["listedOutputs"][0]).partition(".")[0]: {os.path.basename(file["path"]) for file in it["inputs"]}
                for it in self.of("M2Compile")}


class Workspace:
    """A folder with the rules, the program m2 and a file BUILD, and a server of Bazel for it."""

    def __init__(self, folder, m2, program="Main", front=()):
        self.folder, self.m2, self.program, self.front, self.always = folder, m2, program, list(front), []
        shutil.copytree(RULES, f"{folder}/builds/bazel")
        shutil.copy(m2, f"{folder}/builds/bazel/m2")
        with open(f"{folder}/WORKSPACE", "w", encoding="utf-8"):
            pass

    def __enter__(self):
        return self

    def __exit__(self, *_):
        self.bazel("shutdown")

    @property
    def out(self):
        return f"{self.folder}/bazel-bin/{self.program}_program"

    def bazel(self, *words):
        """Calls Bazel. Its own files stand beside the folder."""
        return subprocess.run([*self.front, "bazel", "--nohome_rc", *STARTUP, f"--output_user_root={self.folder}.bazel", *words], cwd=self.folder,
                              stdin=subprocess.DEVNULL, stdout=subprocess.PIPE, stderr=subprocess.STDOUT, timeout=PATIENCE, text=True)

    def write_build(self, *words):
        """Writes BUILD of what `m2 graph` says, and answers what went wrong."""
        graph = subprocess.run([self.m2, "graph", "--format", "json", *words, f"{self.program}.mod"], cwd=self.folder, check=True, capture_output=True)
        came = subprocess.run([sys.executable, f"{RULES}/write_build"], input=graph.stdout, capture_output=True)
        with open(f"{self.folder}/BUILD", "wb") as file:
            file.write(came.stdout)
        return came.stderr.decode()

    def build(self, *words, target=None):
        log = f"{self.folder}.log"
        if os.path.exists(log):
            os.remove(log)
        came = self.bazel("build", "--spawn_strategy=sandboxed", "--nosandbox_debug", f"--execution_log_json_file={log}", *self.always, *words,
                          target or f"{self.program}_program")
        return Outcome(came.returncode, came.stdout, entries(log) if os.path.exists(log) else [])
