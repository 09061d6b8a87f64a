"""Two machines: network namespaces, which reach each other and nothing else. The network of this machine stays as it is."""
import contextlib
import os
import subprocess

# addresses for documents (RFC 5737): they stand in the two namespaces alone
FIRST, SECOND = "192.0.2.1", "192.0.2.2"


def tried(*words):
    """Whether a command could be called and ended well."""
    try:
        return subprocess.run(words, stdin=subprocess.DEVNULL, stdout=subprocess.DEVNULL, stderr=subprocess.DEVNULL).returncode == 0
    except OSError:
        return False


@contextlib.contextmanager
def two():
    """Answers the address of the first machine, and the words in front of a command that runs on the first and on the second. Who may
    make no network namespaces has this machine for both, and no words."""
    first, second = f"m2-first-{os.getpid()}", f"m2-second-{os.getpid()}"
    made = [name for name in (first, second) if tried("ip", "netns", "add", name)]
    steps = [("-n", first, "link", "add", "wire", "type", "veth", "peer", "name", "wire", "netns", second)]
    for name, address in ((first, FIRST), (second, SECOND)):
        steps += [("-n", name, "address", "add", f"{address}/30", "dev", "wire"),
                  ("-n", name, "link", "set", "wire", "up"), ("-n", name, "link", "set", "lo", "up")]
    try:
        is_made = len(made) == 2 and all(tried("ip", *it) for it in steps)
        yield (FIRST, ["ip", "netns", "exec", first], ["ip", "netns", "exec", second]) if is_made else ("127.0.0.1", [], [])
    finally:
        for name in made:
            tried("ip", "netns", "delete", name)
