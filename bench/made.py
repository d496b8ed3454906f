"""Structures of drug-like sizes, made by a fixed seed: rings with chains, groups and other rings at them."""
import random
import re
import zlib

# Rings from the atom that joins them to the rest; 1 and 2 are their ring numbers.
RINGS = [ring.split() for ring in """
c1 c c c c c1|c1 c c c c c1|c1 c c c c c1|c1 c c c c c1|c1 c c c c n1|c1 c c c n c1|c1 c c n c c1|c1 n c c c n1
c1 c n c n c1|c1 c n c c n1|c1 c c c n n1|c1 c c c s1|c1 c c s c1|c1 c c c o1|n1 c c c c1|n1 c c n c1|n1 n c c c1
n1 n n c c1|c1 n n n [nH]1|c1 n c c o1|c1 n c c s1|c1 c c n o1|c1 n n c o1|c1 n n c s1|c1 c c2 c c c c c2 o1
c1 c [nH] c2 c c c c c12|c1 n c2 c c c c c2 [nH]1|c1 n c2 c c c c c2 s1|c1 c c n c2 c c c c c12
c1 n c n c2 c c c c c12|c1 c c c c2 c c c c c12|n1 c n c2 c n c n c12|c1 c c c2 O C O c2 c1|C1 C C c2 c c c c c12
N1 C C C C C1|C1 C C N C C1|N1 C C N C C1|N1 C C N C C1|N1 C C O C C1|N1 C C S C C1|N1 C C C C1|N1 C C C1|C1 C C1
C1 C C C C C1|C1 C C C C1|C1 C C C O1|C1 C C O C C1|N1 C C C C1=O|C1 C C C c2 c c c c c12|C1 C C O c2 c c c c c12
C1 C C2 C C C1 C2|C1 C C2 C C C1 N2|N1 C C c2 c c c c c2 C1|C1 C C C C C C1|C1 C O C(=O) N1|C1 C C C2 C C C C C12
""".strip().replace("\n", "|").split("|")]
# What joins a ring to the next; those from FIRST_CARBON on begin with carbon or sulfur, and may stand at nitrogen.
LINKS = ("O N NC(=O) NS(=O)(=O) OC NC NCC NC(=O)N OCC OCCN /N=C/ "
         "C C CC CCC C(=O) C(=O)N C(=O)O C(=O)NC CO CN CCN CCO CSC C(C) C(O)C CC(=O)N C(=O)CS S(=O)(=O) CN(C)C").split()
FIRST_CARBON = 11
# What ends a chain; from FIRST_CARBON_GROUP on as above.
GROUPS = ("F F Cl Cl Br I O O OC OC OCC N N(C)C NC NC(C)=O NS(C)(=O)=O SC [N+](=O)[O-] OC(F)(F)F B(O)O P(=O)(OC)OC "
          "C C C CC CCC C(C)C C(C)(C)C CCO CCCl C#N C(=O)O C(=O)OC C(=O)OCC C(=O)N C(F)(F)F C(C)=O C=C C#C C=O CN "
          "CCN(C)C C(=O)[O-] S(C)(=O)=O S(N)(=O)=O [Si](C)(C)C C(N)=O CCCC CC=CC").split()
FIRST_CARBON_GROUP = 21
# What a text begins with, and ends with.
ROOTS = ("C CC CC(C) CC(C)(C) OC(=O) NC(=O) COC(=O) CNC(=O) CC(=O) N#C FC(F)(F) CS(=O)(=O) NS(=O)(=O) OCC COCC "
         "CN(C)CC").split()
SALTS = [""] * 30 + [".Cl", ".[Na+]", ".OC(=O)C=CC(=O)O"]


def hang(draw, atom, depth):
    """A ring by a link, or a group, as it may hang on an atom."""
    at_nitrogen = atom == "N"
    if depth < 4 and draw.random() < 0.45:
        links = LINKS[FIRST_CARBON if at_nitrogen else 0:]
        return ("" if draw.random() < 0.3 else draw.choice(links)) + ring_text(draw, depth)
    return draw.choice(GROUPS[FIRST_CARBON_GROUP if at_nitrogen else 0:])


def ring_text(draw, depth):
    """A ring with what hangs on it. The rings that it hangs on have smaller ring numbers."""
    text, share = "", draw.choice((0.15, 0.25, 0.35) if depth == 0 else (0.1, 0.2))
    for place, atom in enumerate(draw.choice(RINGS)):
        text += atom.replace("1", str(2 * depth + 1)).replace("2", str(2 * depth + 2))
        if place > 0 and atom in ("c", "C", "N") and draw.random() < share:
            text += "(" + hang(draw, atom, depth + 1) + ")"
    return text


def elements(text):
    """The symbols of all atoms but hydrogens, sorted; two texts of one structure have the same."""
    return sorted(symbol.upper() for symbol in re.findall("Cl|Br|Si|Na|[BCNOPSFIbcnops]", text))


def shelves(count):
    """Texts, a tenth more than asked for, numbered as they were drawn. Two of one structure have the same elements and
    so stand on one shelf. A program may refuse some."""
    draw, found, drawn = random.Random(57), [[] for _ in range(64)], 0
    while drawn < count * 1.1 + 50:
        text = draw.choice(ROOTS) + ring_text(draw, 0) + draw.choice(SALTS)
        symbols = elements(text)
        if 15 <= len(symbols) <= 45:
            found[zlib.crc32("".join(symbols).encode()) % 64].append((drawn, text))
            drawn += 1
    return found
