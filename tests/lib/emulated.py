"""emulated: finds what runs programs on processors that this machine need not have."""

import shutil


def emulator(machine):
    """qemu for this machine, as `x86_64`, or None where it is not here."""
    return shutil.which(f"qemu-{machine}") or shutil.which(f"qemu-{machine}-static")
