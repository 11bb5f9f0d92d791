abnfi rfc8259.abnf < lines.txt
