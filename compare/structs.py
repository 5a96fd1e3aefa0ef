"""Random structs, with the sizes, alignments and offsets that a C compiler gives them."""

import random
import subprocess
import tempfile
from pathlib import Path

SCALARS = {
    "bool": "_Bool",
    "char": "signed char",
    "uchar": "unsigned char",
    "short": "short",
    "ushort": "unsigned short",
    "int": "int",
    "uint": "unsigned int",
    "long": "long",
    "ulong": "unsigned long",
    "llong": "long long",
    "ullong": "unsigned long long",
}


def member(pick, name, structs):
    """A member as a row writes it, and as C declares it."""
    scalar = pick.choice(list(SCALARS))
    row, declared = scalar, SCALARS[scalar]
    if structs and pick.random() < 0.3:
        number = pick.randrange(structs)
        row, declared = f"#{number}", f"struct s{number}"
    if pick.random() < 0.15:
        row, declared = f"{row}.*", f"{declared} *"
    lengths = [pick.choice([1, 2, 3, 5, 7]) for _ in range(pick.choice([0, 0, 0, 1, 1, 2]))]
    row += "".join(f".{length}" for length in reversed(lengths))
    return f"{name}:{row}", f"{declared} {name}" + "".join(f"[{length}]" for length in lengths)


def answers(seed, count, compiler="cc"):
    """Rows that add so many structs and ask for their members, each with its answer."""
    pick = random.Random(seed)
    asked, declared, prints = [], [], []
    for number in range(count):
        members = [member(pick, f"m{index}", number) for index in range(pick.randint(1, 6))]
        declared.append(f"struct s{number} {{ " + " ".join(f"{text};" for _, text in members) + " };")
        asked.append(f"layout struct {' '.join(row for row, _ in members)}")
        prints.append(f'printf("%zu/%zu\\n", sizeof(struct s{number}), _Alignof(struct s{number}));')
        for row, _ in members:
            name = row.split(":")[0]
            place = f"((struct s{number} *)0)->{name}"
            asked.append(f"layout member {number} {name}")
            prints.append(f'printf("%zu %zu/%zu\\n", offsetof(struct s{number}, {name}), sizeof({place}), __alignof__({place}));')
    text = "#include <stdio.h>\n#include <stddef.h>\n" + "\n".join(declared) + "\nint main(void) {\n" + "\n".join(prints) + "\n}\n"
    with tempfile.TemporaryDirectory() as folder:
        source, program = Path(folder) / "structs.c", Path(folder) / "structs"
        source.write_text(text)
        subprocess.run([compiler, "-w", "-o", program, source], check=True)
        told = subprocess.run([program], check=True, capture_output=True, text=True).stdout.splitlines()
    return [f"{row} = {answer}" for row, answer in zip(asked, told, strict=True)]
