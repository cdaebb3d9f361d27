"""Compares two tables that are given in memory."""
from desk import Desk, Table

desk = Desk()
desk.load(1, Table(obligors=[5, 1], defaults=[2, 1], announced=[400_000, 1_000_000]))
desk.load(2, Table(survivors=[2, 1], defaults=[0, 3], announced=[0, 750_000]))
print(desk.compare())
