"""Makes a SMILES of a molfile that a store has: its atoms, bonds, isotopes, charges and hydrogens.

It reads what docs/formats.md, "Molfiles", says, and fills hydrogens by its tables. Double bonds stand as they are
written there. What the program refuses is not refused here; a text that cannot be read raises `ValueError` or
`IndexError`.
"""
from typing import Dict, List, NamedTuple, Tuple

CHARGES = {1: 3, 2: 2, 3: 1, 5: -1, 6: -2, 7: -3}
MOLFILE_VALENCES: Dict[str, Dict[int, Tuple[int, ...]]] = {
    "B": {-1: (4,), 0: (3,), 1: (2,)},
    "C": {-1: (3,), 0: (4,), 1: (3,)},
    "N": {-1: (2,), 0: (3, 5), 1: (4,)},
    "P": {-1: (2,), 0: (3, 5), 1: (4,)},
    "O": {-1: (1,), 0: (2,), 1: (3,)},
    "S": {-1: (1,), 0: (2, 4, 6), 1: (3, 5)},
    **{halogen: {0: (1,)} for halogen in ("F", "Cl", "Br", "I")},
}
SMILES_VALENCES: Dict[str, Tuple[int, ...]] = {
    "B": (3,), "C": (4,), "N": (3, 5), "P": (3, 5), "O": (2,), "S": (2, 4, 6),
    "F": (1,), "Cl": (1,), "Br": (1,), "I": (1,),
}
BONDS = {1: "", 2: "=", 3: "#"}


class Atom:
    """An atom as it is written."""

    def __init__(self, line: str):
        symbol = field(line, 32, 34)
        self.symbol = "H" if symbol in ("D", "T") else symbol
        self.isotope = {"D": 2, "T": 3}.get(symbol, 0)
        code = number(line, 37, 39)
        self.charge = CHARGES.get(code, 0)
        self.electrons = 1 if code == 4 else 0
        self.valence = number(line, 49, 51)
        self.bonds: List[Tuple[int, int]] = []
        """The neighbour and the order of each bond, in the order of the lines."""

    def hydrogens(self) -> int:
        orders = sum(order for _, order in self.bonds)
        if self.valence:
            return max(0, (0 if self.valence == 15 else self.valence) - orders)
        valences = MOLFILE_VALENCES.get(self.symbol, {}).get(self.charge, ())
        return least_above(valences, orders + self.electrons)

    def text(self) -> str:
        """The atom as a SMILES has it; without brackets where these say no more."""
        hydrogens = self.hydrogens()
        plain = SMILES_VALENCES.get(self.symbol, ())
        orders = sum(order for _, order in self.bonds)
        if plain and not self.isotope and not self.charge and least_above(plain, orders) == hydrogens:
            return self.symbol
        isotope = str(self.isotope) if self.isotope else ""
        count = "" if hydrogens == 0 else "H" if hydrogens == 1 else f"H{hydrogens}"
        charge = {0: "", 1: "+", -1: "-"}.get(self.charge, f"{self.charge:+d}")
        return f"[{isotope}{self.symbol}{count}{charge}]"


class Opening(NamedTuple):
    """A ring bond, from the atom that is written first."""

    number: int
    order: int


def least_above(valences: Tuple[int, ...], sum_of_bonds: int) -> int:
    """What is missing to the least valence that is not below a sum; 0 where all are below it."""
    return next((valence - sum_of_bonds for valence in valences if valence >= sum_of_bonds), 0)


def field(line: str, first: int, last: int) -> str:
    """The text in columns, which count from 1, without blanks round it."""
    return line[first - 1 : last].strip(" ")


def number(line: str, first: int, last: int) -> int:
    text = field(line, first, last)
    return int(text) if text else 0


def read_atoms(text: str) -> List[Atom]:
    """The atoms of a molfile with their bonds."""
    lines = text.split("\n")
    if len(lines) < 4:
        raise ValueError("no counts line")
    count, bonds = number(lines[3], 1, 3), number(lines[3], 4, 6)
    atoms = [Atom(line) for line in lines[4 : 4 + count]]
    for line in lines[4 + count : 4 + count + bonds]:
        a, b, order = number(line, 1, 3) - 1, number(line, 4, 6) - 1, number(line, 7, 9)
        if not 0 <= a < len(atoms) or not 0 <= b < len(atoms) or order not in BONDS:
            raise ValueError("a bond line")
        atoms[a].bonds.append((b, order))
        atoms[b].bonds.append((a, order))
    read_properties(atoms, lines[4 + count + bonds :])
    return atoms


def read_properties(atoms: List[Atom], lines: List[str]) -> None:
    """Sets charges, radicals and isotopes from property lines."""
    pairs: List[Tuple[str, int, int]] = []
    skip = False
    for line in lines:
        if skip:
            skip = False
        elif line.startswith("M  END"):
            break
        elif line[:3] in ("A  ", "G  "):
            skip = True
        elif line[:6] in ("M  CHG", "M  RAD", "M  ISO"):
            words = [int(word) for word in line[6:].split()]
            pairs += [(line[3:6], words[k] - 1, words[k + 1]) for k in range(1, 2 * words[0], 2)]
    if any(kind != "ISO" for kind, _, _ in pairs):
        for atom in atoms:
            atom.charge = atom.electrons = 0
    for kind, place, value in pairs:
        if kind == "CHG":
            atoms[place].charge = value
        elif kind == "RAD":
            atoms[place].electrons = {0: 0, 2: 1}.get(value, 2)
        else:
            atoms[place].isotope = value


class Walk:
    """The order in which the atoms are written: a tree for each component, and ring bonds between its atoms."""

    def __init__(self, atoms: List[Atom]):
        self.atoms = atoms
        self.children: List[List[Tuple[int, int]]] = [[] for _ in atoms]
        self.rings: List[List[Tuple[int, int, bool]]] = [[] for _ in atoms]
        """Of each atom: the other end of a ring bond, its order, and whether the bond opens here."""
        self.roots: List[int] = []
        self.place = [-1] * len(atoms)
        self.written = 0
        for root in range(len(atoms)):
            if self.place[root] < 0:
                self.roots.append(root)
                self.component(root)

    def component(self, root: int) -> None:
        """Walks depth first. A bond back to an atom that was met is a ring bond."""
        stack = [(root, -1, iter(self.atoms[root].bonds))]
        self.meet(root)
        while stack:
            atom, before, bonds = stack[-1]
            step = next(bonds, None)
            if step is None:
                stack.pop()
                continue
            other, order = step
            if self.place[other] < 0:
                self.meet(other)
                self.children[atom].append((other, order))
                stack.append((other, atom, iter(self.atoms[other].bonds)))
            elif other != before and self.place[other] < self.place[atom]:
                self.rings[other].append((atom, order, True))
                self.rings[atom].append((other, order, False))

    def meet(self, atom: int) -> None:
        self.place[atom] = self.written
        self.written += 1


def smiles_of(text: bytes) -> bytes:
    """A SMILES of the structure of a molfile."""
    atoms = read_atoms(text.decode("latin-1"))
    walk = Walk(atoms)
    written: List[str] = []
    free = list(range(99, 0, -1))
    opened: Dict[Tuple[int, int], int] = {}
    for place, root in enumerate(walk.roots):
        if place:
            written.append(".")
        todo: List[object] = [(root, 0)]
        while todo:
            step = todo.pop()
            if isinstance(step, str):
                written.append(step)
                continue
            atom, order = step  # type: ignore[misc]
            written.append(BONDS.get(order, "") + atoms[atom].text() + ring_numbers(walk, atom, free, opened))
            children = walk.children[atom]
            for number_of, (child, bond) in reversed(list(enumerate(children))):
                is_last = number_of + 1 == len(children)
                todo += [(child, bond)] if is_last else [")", (child, bond), "("]
    return "".join(written).encode("latin-1")


def ring_numbers(walk: Walk, atom: int, free: List[int], opened: Dict[Tuple[int, int], int]) -> str:
    """The ring numbers of an atom: those that close first, then those that open."""
    text = ""
    closing = [(opened.pop((other, atom)), order) for other, order, opens in walk.rings[atom] if not opens]
    for number_of, _ in closing:
        text += number_text(number_of)
    for other, order, opens in walk.rings[atom]:
        if opens:
            number_of = opened[(atom, other)] = take(free)
            text += BONDS[order] + number_text(number_of)
    free += [number_of for number_of, _ in closing]
    free.sort(reverse=True)
    return text


def take(free: List[int]) -> int:
    if not free:
        raise ValueError("more than 99 rings are open at once")
    return free.pop()


def number_text(number_of: int) -> str:
    return str(number_of) if number_of < 10 else f"%{number_of}"
