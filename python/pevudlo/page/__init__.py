"""`paris page`: a script as one page of HTML."""
