abnfi -u utf8 -s IRI-reference rfc3987.abnf < lines.txt
