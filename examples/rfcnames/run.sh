abnfx -l core.txt adds.txt
