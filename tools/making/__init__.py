"""How the program is proved and built, and by which sums it is known what a built program is of."""
