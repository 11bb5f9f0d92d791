abnfd -s Language-Tag rfc3066.abnf rfc5646.abnf
