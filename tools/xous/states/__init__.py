"""States of the machine as bytes, and what a process sees of one."""
