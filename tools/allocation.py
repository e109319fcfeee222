"""What `bin/spansql` and the programs of bench/ ask of the C library's allocator, where the user has set nothing there (GLIBC_TUNABLES).

Large pages, where the system gives them: with pages of 4,096 bytes a tenth of the time of loads in no order goes into page tables. And blocks of
any size from a heap that grows by 16 MB and is kept until the process ends: else each list above 32 MB is mapped anew as it grows, and memory
that was released is cleared by the kernel once more when it is used again.
"""
import os

SETTINGS = {
    "hugetlb": 1,
    "mmap_threshold": 1 << 32,
    "trim_threshold": 1 << 33,
    "top_pad": 1 << 24,
}


def ask(**more):
    """Sets it for the programs that this process starts, with further settings of `glibc.malloc`."""
    settings = {**SETTINGS, **more}
    os.environ.setdefault("GLIBC_TUNABLES", ":".join(f"glibc.malloc.{name}={value}" for name, value in settings.items()))
