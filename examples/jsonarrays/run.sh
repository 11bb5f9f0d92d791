abnfd ../rfc8259/rfc8259.abnf rewritten.abnf
