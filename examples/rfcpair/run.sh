abnfx first.txt second.txt
