"""What bench/front and bench/front_kills share."""
import os
import subprocess
import sys

TOP = os.path.dirname(os.path.dirname(os.path.realpath(__file__)))


def stop(text):
    sys.exit(f"{os.path.basename(sys.argv[0])}: {text}")


def built(room):
    """The program pfx_bench_front: the one that PFX_FRONT_BENCH names, or a new one."""
    named = os.environ.get("PFX_FRONT_BENCH")
    if named:
        return os.path.realpath(named)
    print("bench: proving and building pfx_bench_front", file=sys.stderr)
    crate = f"{TOP}/crates/pfx_bench_front"
    words = [os.environ.get("RT", "rt"), "run", "--", f"{room}/first", "1", "0", "1"]
    made = subprocess.run(words, cwd=crate, stdout=subprocess.PIPE, stderr=subprocess.STDOUT, text=True)
    if made.returncode:
        stop(made.stdout)
    return f"{crate}/out/pfx_bench_front"
