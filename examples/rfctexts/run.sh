abnfx uri.txt path.txt
