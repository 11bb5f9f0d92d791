abnfi -s date-time rfc3339.abnf < lines.txt
