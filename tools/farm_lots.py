"""Lots that the checks of farm/ run: plans of many sites and dies with faults, stops, bins, skews and several tries, made alike each
time, on the scan example."""
from collections.abc import Callable

from programs import top

PROGRAM = "examples/s27scan/s27scan.stil"
# the call of the scan example around which a loop makes it longer
CALL = 'Call "capture" { "_pi"=0101; "_po"=L; }'
NET = "examples/s27scan/s27scan.bench"


def nets() -> list[str]:
    """The nets of the scan example, in the order of its file."""
    found = []
    for line in (top / NET).read_text().splitlines():
        if line.startswith(("INPUT(", "OUTPUT(")):
            found.append(line.partition("(")[2].rstrip(")"))
        elif " = " in line:
            found.append(line.partition(" = ")[0])
    return list(dict.fromkeys(found))


def longer(text: str, times: int) -> str:
    """The scan program with a capture that is run so many times."""
    return text.replace(CALL, f"Loop {times} {{ {CALL} }}")


def rolls(seed: int) -> Callable[[int], int]:
    """Numbers that look like chance, and are the same each time: answers one below what it is given."""
    state = seed

    def roll(below: int) -> int:
        nonlocal state
        state = (state * 6364136223846793005 + 1442695040888963407) % 2**64
        return (state >> 33) % below

    return roll


def plan(sites: int, dies: int, seed: int = 1, net: str = NET) -> str:
    """A plan of so many dies on so many sites, the sites in an order of their own."""
    roll, names = rolls(seed), nets()
    rows = ["lot,3,3,4,,", "clock,CK,,,,", "bind,SO,G7,,,", "bin,fail,0,7,,", "bin,stopped,,30,,"]
    skewed: set[int] = set()
    for number in range(dies):
        # (7 has no divisor with 64 and 16, so each site has its turn)
        site, name = number * 7 % sites, f"d{number}"
        rows.append(f"die,{site},{name},{net},,")
        for value in range(2):
            if roll(3) == 0:
                rows.append(f"fault,{site},{name},{names[value::2][roll(len(names) // 2)]},{roll(2)},{['', 1, 2][roll(3)]}")
        if roll(8) == 0:
            rows.append(f"stop,{site},{name},{1 + roll(2)},{roll(3)},")
        if roll(6) == 0 and site not in skewed:
            skewed.add(site)
            rows.append(f"skew,{site},SI,{(roll(2) + 1) * 1000000},,")
    return "\n".join(rows) + "\n"
