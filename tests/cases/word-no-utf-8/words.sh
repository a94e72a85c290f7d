# The second word ends with a byte that no UTF-8 has.
printf 'read\nin.exi\377\n'
