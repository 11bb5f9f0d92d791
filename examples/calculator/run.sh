pegi calculator.peg < input.txt
