"""The reference: an entry for each command, each instruction and each fault."""
