abnfi -w rfc9110.abnf < lines.txt
