"""The command `desk`: questions about rating scales in files, answered by the proved library."""
