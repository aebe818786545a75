"""Numbers of the modelled machine (docs/machine.md)."""

PAGE = 4096
FIRST_PID, FIRST_TID, HANDLER_TID, MOST_TIDS = 2, 2, 1, 31
MOST_PROCESSES = 64
MOST_STEPS, USUAL_STEPS = 4_000_000_000, 10_000_000
MOST_SLOTS, MOST_FRAMES = 16_384, 16_384
TABLE_FRAMES = 21  # frames for the page tables of one process
CONSOLE, TIMER = 0xF000_0000, 0xF000_1000  # addresses
TIMER_INTERRUPT = 20
# Addresses from and to.
WINDOWS = {
    "Image": range(0x0001_0000, 0x0100_0000),
    "Heap": range(0x2000_0000, 0x2100_0000),
    "Message": range(0x4000_0000, 0x4100_0000),
    "Map": range(0x6000_0000, 0x6100_0000),
    "Stack": range(0x7F00_0000, 0x8000_0000),
}
FIRST_STACK = range(0x7FFF_8000, 0x8000_0000)  # of a process's first thread
HANDLER_STACK = range(0x7F00_0000, 0x7F00_1000)


def window(address: int) -> str | None:
    """The name of the window that an address is in."""
    return next((name for name, addresses in WINDOWS.items() if address in addresses), None)
