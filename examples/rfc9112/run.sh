abnfi -z -w rfc9112.abnf < records.txt
