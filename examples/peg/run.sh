pegi peg.peg < peg.peg
