"""The language of scripts: commands, instructions, places, replies, faults, and what is declared."""
