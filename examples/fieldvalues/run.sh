abnfd rfc7230.abnf rfc9110.abnf
