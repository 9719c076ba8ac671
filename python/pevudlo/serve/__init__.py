"""Programs in the browsers of many people: a book for each seat of a class, with a board for who teaches."""
