pegi json.peg < input.txt
