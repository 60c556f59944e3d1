"""Network namespaces on one bridge, as machines of a trial: what runs in one is killed together, and its link can be cut. Needs root and ip."""
import os
import subprocess
import sys

TOP = os.path.dirname(os.path.dirname(os.path.abspath(__file__)))
sys.dont_write_bytecode = True
sys.path.insert(0, f"{TOP}/trials/support")
import kills as kit  # noqa: E402


def call(*words, check=True):
    return subprocess.run(words, check=check, capture_output=True, text=True)


class Nets:
    """Machines by name, the first of which is the drive's own; the N-th has the address NET.10+N."""

    def __init__(self, names, net):
        self.names, self.net, self.children = names, net, {}
        call("ip", "link", "add", "pfxbr", "type", "bridge")
        call("ip", "link", "set", "pfxbr", "up")
        for at, name in enumerate(names):
            call("ip", "netns", "add", f"pfx-{name}")
            call("ip", "link", "del", f"pfxv{name}", check=False)        # of a trial just before, which the system is still taking away
            call("ip", "link", "add", f"pfxv{name}", "type", "veth", "peer", "name", "eth0", "netns", f"pfx-{name}")
            call("ip", "link", "set", f"pfxv{name}", "master", "pfxbr", "up")
            call("ip", "-n", f"pfx-{name}", "addr", "add", f"{self.address(name)}/24", "dev", "eth0")
            call("ip", "-n", f"pfx-{name}", "link", "set", "eth0", "up")
            call("ip", "-n", f"pfx-{name}", "link", "set", "lo", "up")

    def address(self, name):
        return f"{self.net}.{10 + self.names.index(name)}"

    def run(self, name, *words, **more):
        """Starts a daemon on a machine."""
        child = subprocess.Popen(["nsenter", f"--net=/run/netns/pfx-{name}", *words], stdout=subprocess.DEVNULL, stderr=subprocess.DEVNULL,
                                 start_new_session=True, **more)
        self.children.setdefault(name, []).append(child)

    def processes(self, name):
        return [int(pid) for pid in call("ip", "netns", "pids", f"pfx-{name}", check=False).stdout.split()]

    def kill(self, name):
        """All processes of a machine, as if its power had gone."""
        for pid in self.processes(name):
            kit.kill(pid)
        for child in self.children.pop(name, []):
            child.wait()

    def link(self, name, way):
        call("ip", "-n", f"pfx-{name}", "link", "set", "eth0", way, check=False)

    def end(self):
        for name in self.names:
            self.kill(name)
            call("ip", "netns", "del", f"pfx-{name}", check=False)
        call("ip", "link", "del", "pfxbr", check=False)
