"""How the prover lays out its heap, by what its allocator (mimalloc) and the kernel are told. It proves the same in less time."""

import os
import subprocess

import tries
from command import ROOT

# With less a processor the checks beside each other may not have room, since huge pages take half as much again.
LEAST_MEMORY = 5_000_000_000


def lay_out(room):
    """Has the provers that this process starts keep the memory that they have, and where there is enough of it take huge pages."""
    os.environ["MIMALLOC_PURGE_DELAY"] = "-1"
    if tries.free_memory() >= LEAST_MEMORY * tries.Processors.there():
        library = f"{room}/huge_pages.so"
        subprocess.run(["cc", "-O2", "-shared", "-fPIC", "-o", library, f"{ROOT}/ci/huge_pages.c"], check=True)
        os.environ["LD_PRELOAD"] = library
