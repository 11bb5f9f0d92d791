pegi csv.peg < input.txt
