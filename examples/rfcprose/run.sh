abnfx sections.txt tables.txt
