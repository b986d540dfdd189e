"""What adapters and tools share: where the built program is, its lines, and how to ask it or the broker."""
