abnfi rfc5322.abnf < lines.txt
