"""For the parts of .ci/edges that run the program over a library of LD_PRELOAD."""
import os
import shutil
import subprocess
import sys

HERE = os.path.dirname(os.path.realpath(__file__))
# a folder in memory, since no call has to reach a real disk
MEMORY = "/dev/shm" if os.access("/dev/shm", os.W_OK) else None


def compiled(room, name):
    """Compiles the library `name`.c into this folder, by the kit's clang, or else by the system's compiler."""
    source, made, library = f"{HERE}/{name}.c", f"{room}/{name}.o", f"{room}/{name}.so"
    rt = shutil.which("rt")
    chain = os.path.join(os.path.dirname(os.path.dirname(os.path.realpath(rt))), "toolchain", "bin") if rt else ""
    flags = ["-O1", "-fPIC", "-fno-builtin", "-ffreestanding"]
    if os.path.exists(f"{chain}/clang"):
        subprocess.run(
            [f"{chain}/clang", "--target=x86_64-unknown-linux-gnu", *flags, "-c", source, "-o", made], check=True
        )
        subprocess.run([f"{chain}/ld.lld", "-shared", "-o", library, made], check=True)
    elif shutil.which("cc"):
        subprocess.run(["cc", *flags, "-shared", source, "-o", library], check=True)
    else:
        sys.exit(f"edges: left out: no compiler is here for {name}.c")
    return library
