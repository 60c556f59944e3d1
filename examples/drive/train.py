#!/usr/bin/env python3
"""Training, in small: train.py TASK NUMBER TEXT does 500 steps from the checkpoint that TEXT names, and prints the next text.

The checkpoint is a file named by its hash, on the disk before the text is printed. So whatever is killed, and whether or not a unit has
run before, the text names a checkpoint that is whole, and the same steps give the same checkpoint."""
import hashlib
import json
import os
import sys
import time

STEPS, LAST = 500, 10_000
FOLDER = "checkpoints"


def load(text):
    """The step, the weight and the momentum that a text names."""
    if not text:
        return 0, 0.0, 0.0
    step, name = (part.split("=")[1] for part in text.split(";"))
    with open(f"{FOLDER}/{name}") as it:
        state = json.load(it)
    return int(step), state["weight"], state["momentum"]


def save(step, weight, momentum):
    """Has a checkpoint on the disk, whole, and gives its text."""
    body = json.dumps({"step": step, "weight": weight, "momentum": momentum})
    name = hashlib.sha256(body.encode()).hexdigest()[:40]
    os.makedirs(FOLDER, exist_ok=True)
    draft = f"{FOLDER}/.{name}.{os.getpid()}"
    with open(draft, "w") as it:
        it.write(body)
        it.flush()
        os.fsync(it.fileno())
    os.rename(draft, f"{FOLDER}/{name}")
    folder = os.open(FOLDER, os.O_RDONLY)
    os.fsync(folder)
    os.close(folder)
    return f"s={step};ck={name}"


def main():
    task, number, text = sys.argv[1:4]
    if text.startswith("end"):
        return
    step, weight, momentum = load(text)
    for _ in range(STEPS):
        momentum = 0.9 * momentum + 0.001 * (weight - 3.0)
        weight -= momentum
        step += 1
        time.sleep(0.001)               # a step of real training takes its time here
    print(f"unit {number} of {task}: step {step}, weight {weight:.6f}")
    text = save(step, weight, momentum)
    print(text if step < LAST else f"end;{text}")


main()
