abnfi -z -u utf8 -w toml.abnf < records.txt
