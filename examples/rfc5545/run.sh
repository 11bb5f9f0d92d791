abnfi -z -u utf8 rfc5545.abnf < records.txt
