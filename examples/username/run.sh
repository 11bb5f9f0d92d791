pegi username.peg < letter.txt
