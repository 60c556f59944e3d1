"""Three tasks of 2/3 on two workers: the set, a plan of six slots, and the next row.

    PYTHONPATH=python python3 examples/embed/shares.py
"""

from pfx import Planner, Refused


def text(slot, row, count):
    return " ".join([str(slot), *(str(x) if x < count else "*" for x in row)])


def main():
    weights = [(2, 3)] * 3
    planner = Planner(2, weights)
    print(f"hyper={planner.hyper} idle={planner.idle} load={planner.load}")
    for slot in range(6):
        print(text(slot, planner.next_row(), len(weights)))
    print(text(planner.slot, planner.peek(), len(weights)))
    try:
        Planner(1, [(3, 3)])
    except Refused as refused:
        assert str(refused) == "14 BadWeight task=0"


main()
