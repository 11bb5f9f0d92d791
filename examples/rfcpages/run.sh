abnfx paged.txt crlf.txt
