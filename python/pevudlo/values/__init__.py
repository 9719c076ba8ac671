"""Values between Python and the program: arrays or lists, and what a notebook shows of them."""
