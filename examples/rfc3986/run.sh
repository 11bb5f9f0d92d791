abnfi -s URI-reference rfc3986.abnf < lines.txt
