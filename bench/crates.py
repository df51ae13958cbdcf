"""Which crates of the repository some of them stand on."""
import pathlib

top = pathlib.Path(__file__).resolve().parents[1]


def lines():
    """The lines of crates.txt, by the names of their crates."""
    text = [line.split("#")[0].strip() for line in (top / "crates.txt").read_text().splitlines()]
    return {line.split(":")[0]: line for line in text if line}


def below(names):
    """The named crates and all that they stand on, in the order of crates.txt."""
    listed, found, waiting = lines(), set(), names.split()
    while waiting:
        name = waiting.pop()
        if name in listed and name not in found:
            found.add(name)
            waiting += listed[name].split(":")[1].split()
    return [name for name in listed if name in found]
