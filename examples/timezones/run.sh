abnfg -c 8 offset.abnf
