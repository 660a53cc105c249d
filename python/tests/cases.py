"""Seeded cases for the comparison: demands and plans, valid and damaged, and both editions of the reference."""
import importlib.util
import inspect
import pathlib
import sys
from array import array

HERE = pathlib.Path(__file__).resolve().parent
ROOT = HERE.parent.parent
sys.path.insert(0, str(HERE.parent))

from chordvenus.demands import Demand  # noqa: E402


def reference(name):
    """makers/reference.py as a module of its own."""
    spec = importlib.util.spec_from_file_location(name, ROOT / "makers" / "reference.py")
    module = importlib.util.module_from_spec(spec)
    spec.loader.exec_module(module)
    return module


def second_edition():
    """The reference with the second edition wherever it takes one, so that both are called alike."""
    ref = reference("reference_2")
    ref.PORTS, ref.RECORD, ref.RECORDS = ref.SECOND.ports, ref.SECOND.record, ref.SECOND.records
    for function in vars(ref).values():
        if inspect.isfunction(function) and function.__defaults__:
            function.__defaults__ = tuple(ref.SECOND if value is ref.FIRST else value for value in function.__defaults__)
    return ref


FIRST, SECOND = reference("reference_1"), second_edition()


def ports(rng, ref):
    """Mostly few ports, so that many cases are tried; now and then none, too many, or the largest switch's neighbours."""
    if rng.random() < 0.01:
        return rng.choice([0, ref.PORTS + 1])
    return rng.choice([1, 2, 2, 2, 3, 3, 3, 3, 4])


def demand(rng, ref, most=65_535):
    """N and its cells: sparse or dense, small or large, a few with a line that is too long."""
    n = ports(rng, ref)
    if n > 8 or n == 0:
        return n, [0] * (n * n)
    largest = rng.choice([1, 3, 9, 40])
    share = rng.choice([0.2, 0.5, 1.0])
    cells = [rng.randint(0, largest) if rng.random() < share else 0 for _ in range(n * n)]
    if rng.random() < 0.05:
        cells[rng.randrange(n * n)] = rng.choice([most, most + 1, 65_535, 65_536, 70_000, 2**32 - 1])
    return n, cells


def made(n, cells):
    """A Demand of cells as they are."""
    return Demand(n, array("I", cells))


def outputs(rng, n):
    """A setting, full or with idle inputs."""
    order = rng.sample(range(n), n)
    return [j if rng.random() < 0.8 else 255 for j in order]


def plan(rng, ref, n, damaged=0.3):
    """The bytes of a plan of few settings, in some cases with a fault."""
    if n == 0 or n > 8:
        return b""
    settings = [outputs(rng, n) for _ in range(2)]
    holds = (1, 2, 7, 40_000, 65_535)
    records = [bytearray(ref.record_bytes(rng.choice(holds), n, rng.choice(settings))) for _ in range(rng.randint(0, 4))]
    if records and rng.random() < damaged:
        damage(rng, n, rng.choice(records))
    data = b"".join(records)
    if rng.random() < damaged / 6:
        data += bytes(rng.randint(1, ref.RECORD - 1))
    if rng.random() < damaged / 1_000:
        data = ref.record_bytes(1, n, [255] * n) * (ref.RECORDS + 1)
    return data


def damage(rng, n, record):
    """One or two bytes of a record changed, near to what is right."""
    for _ in range(rng.choice([1, 1, 2])):
        at = rng.choice([0, 1, 2, 3, 4, 4 + n - 1, 4 + n, len(record) - 1, rng.randrange(len(record))])
        record[at] = rng.choice([0, 1, 2, n, n - 1, 254, 255])
