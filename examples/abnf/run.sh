abnfi -s rule abnf.abnf < lines.txt
