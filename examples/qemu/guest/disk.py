"""A disk image with one EFI system partition, by mtools.

usage: disk.py IMAGE MIB NAME=FILE..
"""

import os
import struct
import subprocess
import sys

START, SECTOR, MTOOLS = 2048, 512, os.environ.get("MTOOLS", "mtools")


def partitioned(path, sectors):
    """Makes the image, with a partition table of one entry."""
    entry = struct.pack("<B3sB3sII", 0x80, b"\0\2\0", 0xEF, b"\xff\xff\xff", START, sectors - START)
    with open(path, "wb") as image:
        image.truncate(sectors * SECTOR)
        image.seek(446)
        image.write(entry)
        image.seek(510)
        image.write(b"\x55\xaa")


def mtools(command, *words):
    subprocess.run([MTOOLS, "-c", command, *words], env=dict(os.environ, MTOOLS_SKIP_CHECK="1"), check=True)


def main(path, mebibytes, *files):
    sectors = int(mebibytes) * 2048
    partition = f"{path}@@{START * SECTOR}"
    partitioned(path, sectors)
    mtools("mformat", "-i", partition, "-T", str(sectors - START), "-h", "16", "-s", "63", "-H", str(START), "-v", "OPAL", "::")
    mtools("mmd", "-i", partition, "::/EFI", "::/EFI/BOOT")
    for name, _, file in (it.partition("=") for it in files):
        mtools("mcopy", "-i", partition, file, f"::/{name}")


main(*sys.argv[1:])
