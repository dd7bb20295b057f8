"""The crates of this repository and what each stands on, as crates.txt has them."""
import os

TOP = os.path.dirname(os.path.dirname(os.path.abspath(__file__)))


def below():
    """Each crate with the list of this repository's crates that it names."""
    named = {}
    with open(os.path.join(TOP, "crates.txt"), encoding="utf-8") as lines:
        for line in lines:
            name, colon, rest = line.split("#")[0].partition(":")
            if colon:
                named[name.split()[0]] = rest.split()
    return {name: [it for it in rest if it in named] for name, rest in named.items()}


def in_order(wanted, crates):
    """These crates and all below them, lowest first."""
    order = []

    def add(name):
        if name not in order:
            for it in crates[name]:
                add(it)
            order.append(name)

    for name in wanted:
        add(name)
    return order


def height(name, crates):
    """How many crates the longest chain from this crate upwards has."""
    return 1 + max((height(it, crates) for it in crates if name in crates[it]), default=0)
